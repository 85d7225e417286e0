//! expat, without its namespace processing: XML 1.0 alone.

use std::ffi::{c_char, c_int, c_void, CStr};
use std::ptr::null;

type Start = unsafe extern "C" fn(*mut c_void, *const c_char, *const *const c_char);

extern "C" {
    fn XML_SetUserData(parser: *mut c_void, data: *mut c_void);
    fn XML_SetElementHandler(parser: *mut c_void, start: Option<Start>, end: Option<unsafe extern "C" fn(*mut c_void, *const c_char)>);
    fn XML_ParserCreate(encoding: *const c_char) -> *mut c_void;
    fn XML_Parse(parser: *mut c_void, text: *const u8, len: c_int, is_final: c_int) -> c_int;
    fn XML_ParserFree(parser: *mut c_void);
}

const STATUS_OK: c_int = 1;

pub fn well_formed(doc: &[u8]) -> bool {
    let Ok(len) = c_int::try_from(doc.len()) else { return false };
    // The parser is freed once, and the length is the document's.
    unsafe {
        let parser = XML_ParserCreate(null());
        assert!(!parser.is_null(), "expat has no memory");
        let status = XML_Parse(parser, doc.as_ptr(), len, 1);
        XML_ParserFree(parser);
        status == STATUS_OK
    }
}

/// An element as expat tells it: its name, and its attributes with their values.
pub struct Element {
    pub name: String,
    pub attributes: Vec<(String, String)>,
}

/// `names` is an array of names and values in turn, and a null after the last one.
unsafe extern "C" fn keep(elements: *mut c_void, name: *const c_char, names: *const *const c_char) {
    // expat hands over texts that end with a 0 and stay until this returns, and the data that it was given.
    unsafe {
        let text = |at: *const c_char| CStr::from_ptr(at).to_string_lossy().into_owned();
        let mut attributes = Vec::new();
        let mut at = names;
        while !(*at).is_null() {
            attributes.push((text(*at), text(*at.add(1))));
            at = at.add(2);
        }
        (*elements.cast::<Vec<Element>>()).push(Element { name: text(name), attributes });
    }
}

/// The elements of a document, in their order; none where it is not well-formed.
pub fn elements(doc: &[u8]) -> Vec<Element> {
    let mut elements: Vec<Element> = Vec::new();
    let Ok(len) = c_int::try_from(doc.len()) else { return elements };
    // The parser is freed once, before the elements are handed on, and the length is the document's.
    let status = unsafe {
        let parser = XML_ParserCreate(null());
        assert!(!parser.is_null(), "expat has no memory");
        XML_SetUserData(parser, (&raw mut elements).cast());
        XML_SetElementHandler(parser, Some(keep), None);
        let status = XML_Parse(parser, doc.as_ptr(), len, 1);
        XML_ParserFree(parser);
        status
    };
    if status == STATUS_OK {
        elements
    } else {
        Vec::new()
    }
}
