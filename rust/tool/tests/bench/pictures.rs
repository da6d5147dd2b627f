//! Pictures: whole SVG for every kind, schedule and k, with as many dots and arrows as the run has values and hashes.

use crate::common::Folder;

/// Tags that open and close as they should; answers how often each is opened.
fn tags(svg: &str) -> Vec<String> {
    let (mut open, mut all) = (Vec::new(), Vec::new());
    for part in svg.split('<').skip(1) {
        let (tag, text) = part.split_once('>').expect("a tag that ends");
        assert!(!text.contains('&'), "{text}");
        let name: String = tag.trim_start_matches('/').chars().take_while(|c| c.is_ascii_alphabetic()).collect();
        assert_eq!(tag.matches('"').count() % 2, 0, "{tag}");
        if tag.starts_with('/') {
            assert_eq!(open.pop(), Some(name));
        } else {
            all.push(name.clone());
            if !tag.ends_with('/') {
                open.push(name);
            }
        }
    }
    assert!(open.is_empty(), "{open:?}");
    all
}

#[test]
fn a_run_has_a_dot_for_each_value_and_an_arrow_for_each_hash() {
    let folder = Folder::new();
    for schedule in ["rushing", "speed-1", "speed-2", "optimal"] {
        for k in ["0", "1", "2", "3", "4", "5", "6"] {
            let rounds = folder.answer(&["list", schedule, k]);
            let sum = |of: &dyn Fn(&crate::json::Value) -> usize| rounds["rounds"].list().iter().map(of).sum::<usize>();
            let held = sum(&|round| round["positions"].list().len());
            let svg = folder.good(&["picture", "run", schedule, k]);
            let tags = tags(&svg);
            let count = |name: &str| tags.iter().filter(|tag| *tag == name).count();
            // Two dots and one arrow more are in the legend.
            assert_eq!(count("circle"), held + 2, "{schedule} {k}");
            assert_eq!(count("polygon") as u64, rounds["total"].number() + 1, "{schedule} {k}");
            assert!(svg.starts_with("<svg xmlns=") && svg.contains("fill=\"#ffffff\"") && count("title") == 1);

            let slots = folder.good(&["picture", "slots", schedule, k]);
            let ticks = 1 << k.parse::<u32>().unwrap();
            assert!(!self::tags(&slots).is_empty());
            assert_eq!(slots.matches("fill=\"none\"").count(), ticks + 1, "each tick is framed, and one in the legend");
        }
    }
}

#[test]
fn the_pictures_in_docs_are_what_the_tool_draws() {
    let folder = Folder::new();
    let docs = concat!(env!("CARGO_MANIFEST_DIR"), "/../../docs/pictures");
    let mut seen = 0;
    for file in std::fs::read_dir(docs).unwrap() {
        let path = file.unwrap().path();
        let name = path.file_stem().unwrap().to_str().unwrap();
        let [kind, rest] = name.splitn(2, '-').collect::<Vec<_>>()[..] else { panic!("{name}") };
        let (schedule, k) = rest.rsplit_once('-').unwrap();
        assert_eq!(folder.good(&["picture", kind, schedule, k]), std::fs::read_to_string(&path).unwrap(), "{name}");
        seen += 1;
    }
    assert!(seen >= 3);
}

#[test]
fn a_picture_goes_to_a_file_that_others_may_read() {
    let folder = Folder::new();
    let told = folder.answer(&["picture", "slots", "optimal", "4", "--out", "slots.svg"]);
    assert_eq!(told["file"].text(), "slots.svg");
    let ran = folder.shell("umask 022; perchmellow picture run optimal 4 --out run.svg && stat -c %a run.svg");
    assert!(ran.out.ends_with("\n644\n"), "{}", ran.out);
    assert_eq!(folder.answer(&["picture", "slots", "optimal", "4"])["svg"].text().as_bytes(), folder.read("slots.svg"));
}
