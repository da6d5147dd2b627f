//! Help texts, their examples run as typed, and bad usage.

use crate::common::Folder;

const COMMANDS: [&str; 13] =
    ["start", "rebuild", "round", "positions", "anchor", "enrol", "offer", "settle", "list", "show", "ride", "picture", "demo"];

#[test]
fn every_command_has_help_and_an_example_that_works_as_typed() {
    let overview = Folder::new().good(&["--help"]);
    for command in COMMANDS {
        assert!(overview.contains(&format!("\n  {command} ")), "{command} in {overview}");
        let folder = Folder::new();
        let help = folder.good(&[command, "--help"]);
        assert_eq!(help, folder.good(&["help", command]));
        let example: Vec<_> = help.lines().filter_map(|line| line.strip_prefix("  $ ")).collect();
        assert!(example.iter().any(|line| line.starts_with(&format!("perchmellow {command}"))), "{help}");
        for line in example {
            let ran = folder.shell(line);
            assert_eq!((ran.status, ran.err.as_str()), (0, ""), "{command}: {line}");
        }
    }
    assert_eq!(overview.matches("\n  ").count(), COMMANDS.len() + 11, "commands and statuses: {overview}");
}

#[test]
fn bad_usage_is_2_with_the_line_of_help_that_it_fails() {
    let folder = Folder::with_card("md5", 2, "optimal");
    let start = ["start", "new.pm", "--k", "2", "--seed-file", "seed.hex"];
    let rebuild = ["rebuild", "new.pm", "--function", "md5", "--k", "2", "--seed-file", "seed.hex"];
    let cases: &[(&[&str], &str)] = &[
        (&[], "usage: perchmellow COMMAND"),
        (&["nonsense"], "usage: perchmellow COMMAND"),
        (&["help", "nonsense"], "usage: perchmellow COMMAND"),
        (&["start"], "  --function F "),
        (&start, "  --function F "),
        (&["start", "--function", "md5", "--k", "2", "--seed-file", "seed.hex"], "start wants CARD.\nusage: perchmellow start CARD "),
        (&["start", "new.pm", "--function", "sha", "--k", "2", "--seed-file", "seed.hex"], "  --function F "),
        (&["start", "new.pm", "--function", "md5", "--k", "two", "--seed-file", "seed.hex"], "  --k K "),
        (&["start", "new.pm", "--function", "md5", "--k", "-2", "--seed-file", "seed.hex"], "  --k K "),
        (&["start", "new.pm", "--function", "md5", "--k", "2", "--seed-file", "seed.hex", "--schedule", "fast"], "  --schedule S "),
        (&["start", "new.pm", "--function", "md5", "--seed-file", "seed.hex"], "--k or --ticks is wanted.\n  --k K "),
        (&["start", "new.pm"], "usage: perchmellow start CARD --function F (--k K | --ticks N) --seed-file FILE [--schedule S]\n"),
        (
            &[&start[..], &["--function", "md5", "--ticks", "4"]].concat(),
            "--ticks cannot stand beside --k; give one of the two.\n  --ticks N ",
        ),
        (&["start", "new.pm", "--function", "md5", "--ticks", "many", "--seed-file", "seed.hex"], "  --ticks N "),
        (&["anchor", "--function", "md5", "--seed-file", "seed.hex"], "--k or --ticks is wanted.\n  --k K "),
        (&["enrol", "new.pm", "--function", "md5", "--anchor-file", "anchor.hex"], "--k or --ticks is wanted.\n  --k K "),
        (
            &["rebuild", "new.pm", "--function", "md5", "--ticks", "3", "--seed-file", "seed.hex"],
            "--round or --paid is wanted.\n  --round R ",
        ),
        (
            &[&rebuild[..], &["--round", "3", "--paid", "1"]].concat(),
            "--paid cannot stand beside --round; give one of the two.\n  --paid P ",
        ),
        (&[&rebuild[..], &["--paid", "none"]].concat(), "  --paid P "),
        (&["round"], "round wants CARD.\nusage: perchmellow round CARD "),
        (&["round", "card.pm", "post.pm"], "usage: perchmellow round CARD "),
        (&["round", "card.pm", "--times"], "  --times N "),
        (&["round", "card.pm", "--times", "0"], "  --times N "),
        (&["round", "card.pm", "--times", "1", "--times", "2"], "  --times N "),
        (&["round", "card.pm", "--times", "2", "--to-tick"], "  --to-tick "),
        (&["round", "card.pm", "--to-tick=3"], "  --to-tick "),
        (&["round", "card.pm", "--gap", "3"], "round has no option --gap.\nusage: perchmellow round CARD "),
        (&["positions", "--k", "2"], "  --round R "),
        (&["enrol", "new.pm", "--function", "md5", "--k", "2"], "  --anchor-file FILE "),
        (&["offer", "post.pm"], "  --value-file FILE "),
        (&["settle"], "  --function F "),
        (&["settle", "post.pm", "--paid", "2"], "  --paid N "),
        (&["show", "card.pm", "--as", "seed"], "  --as KIND "),
        (&["ride", "card.pm"], "ride wants POST.\nusage: perchmellow ride "),
        (&["ride", "card.pm", "post.pm", "--miss", "3,x"], "  --miss LIST "),
        (&["ride", "card.pm", "post.pm", "--miss", "0"], "  --miss LIST "),
        (&["ride", "card.pm", "post.pm", "--miss", "9-7"], "  --miss LIST "),
        (&["ride", "--save"], "  --save "),
        (&["ride", "card.pm", "post.pm", "--k", "4"], "  --k K "),
        (&["picture", "run", "optimal", "7"], "usage: perchmellow picture KIND SCHEDULE K"),
        (&["picture", "walk", "optimal", "4"], "usage: perchmellow picture KIND SCHEDULE K"),
        (&["picture", "run", "optimal"], "picture wants K.\nusage: perchmellow picture "),
    ];
    let before = folder.read("card.pm");
    for (args, help) in cases {
        let ran = folder.run(args);
        assert_eq!((ran.status, ran.out.as_str()), (2, ""), "{args:?}");
        assert!(ran.err.contains(help), "{args:?}: {}", ran.err);
        assert_eq!(folder.trouble(args).0, 2);
    }
    assert_eq!(folder.read("card.pm"), before);
    assert_eq!(folder.names(), ["anchor.hex", "card.pm", "post.pm", "seed.hex"]);
}

#[test]
fn options_may_be_glued_and_names_may_begin_with_a_dash() {
    let folder = Folder::with_card("md5", 2, "optimal");
    folder.good(&["round", "card.pm", "--times=2"]);
    std::fs::rename(folder.path("card.pm"), folder.path("-card.pm")).unwrap();
    folder.good(&["round", "--times", "1", "--", "-card.pm"]);
}

#[test]
fn the_page_about_the_tool_is_true() {
    let script = concat!(env!("CARGO_MANIFEST_DIR"), "/../../tests/bench-tool.sh");
    let tool = std::path::Path::new(crate::common::TOOL).parent().unwrap();
    let ran = Folder::new().shell(&format!("sh '{script}' '{}'", tool.display()));
    assert_eq!(ran.status, 0, "{}{}", ran.out, ran.err);
}
