// A loss, the recovery line and the roll back to it.
extern "C" {
    fn yerwaqis_replay(text: *const u8, text_len: usize, out: *mut u8, out_len: usize) -> usize;
}

// The answers to a list of calls, or nothing where the buffer is too short for them and stays as it was.
fn replay<'a>(list: &str, out: &'a mut [u8]) -> Option<&'a [u8]> {
    let n = unsafe { yerwaqis_replay(list.as_ptr(), list.len(), out.as_mut_ptr(), out.len()) };
    out.get(..n)
}

fn main() {
    let list = "fresh 2\nopen 0 3\nvote 1 0 1\nvote 1 1 1\ntake 1 0\ntake 1 1\nstore 0 1\nlose 2\nfix 16 776\nroll 0\nroll 1\nshow\n";
    let mut out = [0u8; 1024];
    match replay(list, &mut out) {
        Some(answers) => print!("{}", String::from_utf8_lossy(answers)),
        None => println!("too short"),
    }
}
