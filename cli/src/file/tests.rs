use super::*;
use contacts::{Mode, State};
use std::thread;
use std::time::{Duration, Instant};

/// A folder that goes with the test.
struct Folder(PathBuf);

impl Folder {
    fn new(name: &str) -> Folder {
        // In memory, where there is such a folder: thousands of saves a second meet more than a disk's.
        let memory = Some(PathBuf::from("/dev/shm")).filter(|path| path.is_dir());
        let path = memory.unwrap_or_else(std::env::temp_dir);
        let path = path.join(format!("contacts-{name}-{}", std::process::id()));
        let _ = fs::remove_dir_all(&path);
        fs::create_dir(&path).unwrap();
        Folder(path)
    }

    fn path(&self, name: &str) -> PathBuf {
        self.0.join(name)
    }

    fn count(&self) -> usize {
        fs::read_dir(&self.0).unwrap().count()
    }
}

impl Drop for Folder {
    fn drop(&mut self) {
        let _ = fs::remove_dir_all(&self.0);
    }
}

fn table(rows: usize) -> Vec<u8> {
    let mut table = vec![0; contacts::size(rows).unwrap()];
    contacts::make(&mut table, rows, State::Replica, Mode::Revision, 3).unwrap();
    table
}

fn refusal<T>(result: Result<T, Refusal>) -> String {
    result.err().expect("it is refused").to_string()
}

#[test]
fn a_new_file_has_its_table() {
    let folder = Folder::new("create");
    let path = folder.path("boat.table");
    create(&path, &table(2)).unwrap();
    assert_eq!(read(&path), Ok(table(2)));
    assert_eq!(folder.count(), 1);
}

#[test]
fn a_file_that_is_there_is_not_made_again() {
    let folder = Folder::new("again");
    let path = folder.path("boat.table");
    create(&path, &table(2)).unwrap();
    assert!(refusal(create(&path, &table(1))).ends_with("boat.table: there is such a file already"));
    assert_eq!(read(&path), Ok(table(2)));
    assert!(refusal(create(&folder.path("no/such"), &table(1))).contains("no/such: can't be made: No such file"));
    assert!(refusal(create(&folder.path("a.contacts-new"), &table(1))).contains("is for unfinished saves"));
    assert_eq!(folder.count(), 1);
}

#[test]
fn what_was_saved_is_read() {
    let folder = Folder::new("save");
    let path = folder.path("boat.table");
    create(&path, &table(2)).unwrap();
    let mut file = TableFile::open(&path).unwrap();
    for _ in 0..3 {
        contacts::activate(file.table()).unwrap();
        assert!(refusal(TableFile::open(&path)).contains("another process has it in use"));
        file.save().unwrap();
        assert_eq!(read(&path).unwrap()[0], State::Active.number());
    }
    drop(file);
    assert_eq!(TableFile::open(&path).unwrap().table()[0], State::Active.number());
    assert_eq!(folder.count(), 1);
}

#[test]
fn a_file_is_held_at_every_moment_of_a_save() {
    let folder = Folder::new("held");
    let path = folder.path("boat.table");
    create(&path, &table(1)).unwrap();
    let mut file = TableFile::open(&path).unwrap();
    let end = Instant::now() + Duration::from_secs(1);
    thread::scope(|scope| {
        scope.spawn(|| {
            while Instant::now() < end {
                file.save().unwrap();
            }
        });
        while Instant::now() < end {
            assert!(refusal(TableFile::open(&path)).contains("another process has it in use"));
            assert_eq!(read(&path), Ok(table(1)));
        }
    });
}

#[test]
fn a_damaged_table_is_never_saved() {
    let folder = Folder::new("damaged");
    let path = folder.path("boat.table");
    create(&path, &table(2)).unwrap();
    let mut file = TableFile::open(&path).unwrap();
    file.table()[16] = 1;
    assert!(refusal(file.save()).contains("the table in memory is damaged"));
    file.table().clear();
    assert!(refusal(file.save()).contains("the table in memory is damaged"));
    assert_eq!(read(&path), Ok(table(2)));
}

#[test]
fn a_refusal_is_one_line_whatever_the_name() {
    let folder = Folder::new("lines");
    let line = refusal(read(&folder.path("no\nsuch\x1bfile")));
    assert!(line.lines().count() == 1 && !line.contains('\x1b'), "{line}");
}
