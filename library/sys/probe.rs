//! Prints an archive's version. It names every function, so that it cannot be linked with an archive that lacks one. `build.rs` compiles and runs it.
#[path = "src/functions.rs"]
mod functions;

use functions::{
    lumintayag_convert_note, lumintayag_read_note_v2, lumintayag_read_v3, lumintayag_readable_len, lumintayag_totals, lumintayag_unescape,
    lumintayag_version, lumintayag_views, lumintayag_write,
};

fn main() {
    let others = [
        lumintayag_read_v3 as *const (),
        lumintayag_read_note_v2 as *const (),
        lumintayag_convert_note as *const (),
        lumintayag_readable_len as *const (),
        lumintayag_totals as *const (),
        lumintayag_views as *const (),
        lumintayag_write as *const (),
        lumintayag_unescape as *const (),
    ];
    std::hint::black_box(others);
    // It takes no argument, and every version has it.
    println!("{}", unsafe { lumintayag_version() });
}
