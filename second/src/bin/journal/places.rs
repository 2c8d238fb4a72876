//! What is no journal, or one that does not replay: the program says so, takes no input and leaves the file.

use std::fs;
use std::path::Path;

use second::handlers::LONGEST_CALL;

use crate::due::{filing, same};
use crate::program::Program;

const NOT_OPENED: &str = "the journal cannot be opened";
const NOT_READ: &str = "the journal cannot be read";
const NO_CALL: &str = "a line of the journal is no call that is accepted; the journal is left as it is";

/// A folder, a file in no folder, a file that nobody may write, one that cannot be read at its beginning, and a device that gives bytes without end.
pub fn that_are_no_journal(directory: &Path) {
    let missing = directory.join("no-folder").join("journal");
    let folder = directory.join("folder");
    fs::create_dir(&folder).expect("a folder");
    let places = [
        (folder.as_path(), NOT_OPENED),
        (missing.as_path(), NOT_OPENED),
        (Path::new("/proc/sys/kernel/ostype"), NOT_OPENED),
        (Path::new("/proc/self/mem"), NOT_READ),
        (Path::new("/dev/full"), NO_CALL),
    ];
    // A system may be without the last two.
    let places: Vec<_> = places.into_iter().filter(|(place, why)| *why == NOT_OPENED || place.exists()).collect();
    for (place, why) in &places {
        refused(place, why);
    }
    assert!(
        !missing.exists() && fs::read_dir(&folder).is_ok_and(|mut inside| inside.next().is_none()),
        "nothing is made"
    );
    println!("journal: {} places are told to be no journal", places.len());
}

/// Journals with a line that the program never wrote there, whole or torn.
pub fn that_do_not_replay(directory: &Path) {
    let path = directory.join("changed");
    let one = [filing(1, "A1", 0), b"\n".to_vec()].concat();
    let long = vec![b'X'; LONGEST_CALL + 1];
    let lines: [&[u8]; 9] = [
        b"1 CLEAR 0\n",
        b"2 CLEAR 0\n",
        b"1 LIST\n",
        b"1 LOOK 0\n",
        b"\n",
        b"1 UPDATE 0 (CNL-A1-EHAM0000-EDDF-0)\r\r(\n",
        b"1 FILE (FPL-A2)\n",
        &long,
        &[&long[..], b"\n"].concat(),
    ];
    for line in lines {
        for journal in [[&one, line].concat(), [&one, line, b"1 UPDATE 0 (CNL-A1-EHAM0000-EDDF-0)\n"].concat()] {
            fs::write(&path, &journal).expect("a journal");
            refused(&path, NO_CALL);
            same("a journal that does not replay", &fs::read(&path).expect("a journal"), &journal);
        }
    }
    println!("journal: {} that do not replay are left as they are", 2 * lines.len());
}

/// Nothing on standard output, one line on standard error, and a status that is not 0.
fn refused(place: &Path, why: &str) {
    let wrote = Program::by_name().run(place, b"1 LIST\n");
    same(&format!("told of {}", place.display()), &wrote.err, format!("beechdoublet: {why}\n").as_bytes());
    same(&format!("answers with {}", place.display()), &wrote.out, b"");
    assert!(!wrote.succeeded, "ended with status 0 on {}", place.display());
}
