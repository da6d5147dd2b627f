//! A sheet to draw on, printed as SVG.

use std::fmt::{Display, Write};

pub const INK: &str = "#222222";
pub const FAINT: &str = "#8a8a8a";
pub const BLUE: &str = "#1f3b57";
pub const PALE_BLUE: &str = "#a9c0d6";
pub const ORANGE: &str = "#c2571a";
pub const PALE_ORANGE: &str = "#efc3a4";
pub const GREEN: &str = "#168a4a";
pub const GOLD: &str = "#f0cf6a";
pub const SHADE: &str = "#f1f1ec";

/// Where a text's point is.
#[derive(Clone, Copy)]
pub enum Side {
    Left,
    Middle,
    Right,
}

pub struct Sheet {
    width: f64,
    height: f64,
    title: String,
    body: String,
}

impl Sheet {
    pub fn new(width: f64, height: f64, title: &str) -> Sheet {
        let mut sheet = Sheet { width, height, title: title.into(), body: String::new() };
        // The sheet is white under a dark viewer too.
        sheet.rect(0.0, 0.0, width, height, "#ffffff");
        sheet.text(20.0, 28.0, 17.0, INK, Side::Left, title);
        sheet
    }

    pub fn rect(&mut self, x: f64, y: f64, width: f64, height: f64, fill: &str) {
        let _ = writeln!(self.body, "<rect x=\"{x:.1}\" y=\"{y:.1}\" width=\"{width:.1}\" height=\"{height:.1}\" fill=\"{fill}\"/>");
    }

    pub fn frame(&mut self, x: f64, y: f64, width: f64, height: f64, stroke: &str) {
        let _ = writeln!(
            self.body,
            "<rect x=\"{x:.1}\" y=\"{y:.1}\" width=\"{width:.1}\" height=\"{height:.1}\" fill=\"none\" stroke=\"{stroke}\" stroke-width=\"2\"/>"
        );
    }

    pub fn dot(&mut self, x: f64, y: f64, radius: f64, fill: &str) {
        let _ = writeln!(self.body, "<circle cx=\"{x:.1}\" cy=\"{y:.1}\" r=\"{radius:.1}\" fill=\"{fill}\"/>");
    }

    pub fn line(&mut self, from: (f64, f64), to: (f64, f64), stroke: &str, width: f64) {
        let _ = writeln!(
            self.body,
            "<line x1=\"{:.1}\" y1=\"{:.1}\" x2=\"{:.1}\" y2=\"{:.1}\" stroke=\"{stroke}\" stroke-width=\"{width}\"/>",
            from.0, from.1, to.0, to.1
        );
    }

    /// An arrow to the right, with a head of its own.
    pub fn arrow(&mut self, from: f64, to: f64, y: f64, head: f64, fill: &str) {
        self.line((from, y), (to - head, y), fill, 1.4);
        let (back, half) = (to - head * 1.5, head * 0.75);
        let _ =
            writeln!(self.body, "<polygon points=\"{to:.1},{y:.1} {back:.1},{:.1} {back:.1},{:.1}\" fill=\"{fill}\"/>", y - half, y + half);
    }

    pub fn text(&mut self, x: f64, y: f64, size: f64, fill: &str, side: Side, words: impl Display) {
        let anchor = match side {
            Side::Left => "start",
            Side::Middle => "middle",
            Side::Right => "end",
        };
        let _ = writeln!(
            self.body,
            "<text x=\"{x:.1}\" y=\"{y:.1}\" font-size=\"{size}\" fill=\"{fill}\" text-anchor=\"{anchor}\">{words}</text>"
        );
    }

    pub fn printed(self) -> String {
        let Sheet { width, height, title, body } = self;
        format!(
            "<svg xmlns=\"http://www.w3.org/2000/svg\" width=\"{width:.0}\" height=\"{height:.0}\" viewBox=\"0 0 {width:.0} {height:.0}\" \
             font-family=\"DejaVu Sans, Helvetica, Arial, sans-serif\" role=\"img\">\n<title>{title}</title>\n{body}</svg>\n"
        )
    }
}
