"""A small header and small sources for the test of exports.py, and what is changed in them."""

HEADER = """#include <stddef.h>
#include <stdint.h>
#define NIT_VERSION 2
#define NIT_MOST 4096
typedef uint64_t nit_client;
struct nit_server { void *at; uint64_t mark; };
enum nit_answer { NIT_DONE = 1, /* done */ NIT_LATE = 32 };
struct nit_pair { uint16_t x, y; int32_t turn; };
struct nit_told { uint32_t kind; struct nit_pair to[3]; uint32_t zero; uint64_t need; };
struct nit_told nit_tell(struct nit_server *server, uint32_t w, int32_t x, const char *text,
                         size_t length);
uint32_t nit_put(struct nit_server *server, uint32_t *out, size_t count);
uint32_t nit_held(const struct nit_server *server, nit_client client);
uint32_t nit_open_2(struct nit_server *server);
#define NIT_TEXT(name) case name: return #name
static inline const char *nit_text(uint32_t kind)
{
    switch (kind) {
    NIT_TEXT(NIT_DONE); NIT_TEXT(NIT_LATE);
    default: return "unknown";
    }
}
static inline uint32_t nit_more(struct nit_server *server)
{
    return nit_put(server, 0, 0);
}
"""

SOURCES = """
const DONE: u32 = 1;
const LATE: u32 = 32;
const THREE: usize = 3;
const FOUR: usize = 4;
#[repr(C)]
#[derive(Drop)]
pub struct NitServer {
    at: *mut u8,
    mark: u64,
    alloc: Global,
    pub ghost value: { Served } by { served_coded },
}
/// A pair.
#[repr(C)]
pub struct NitPair {
    pub x: u16,
    pub y: u16,
    pub turn: i32,
}
#[repr(C)]
pub struct NitTold {
    pub kind: u32,
    pub to: [NitPair; 3],
    pub zero: u32,
    pub need: u64,
}
#[unsafe(no_mangle)]
pub extern "C" fn nit_tell(
    alloc: Global,
    server: &mut NitServer,
    w: u32,
    x: i32,
    text: &[u8],
) -> NitTold
    ensures told { Told server.old.value w x text.now result }
{
    tell()
}
#[unsafe(no_mangle)]
pub extern "C" fn nit_put(alloc: Global, server: &mut NitServer, out: &mut [u32]) -> u32 {
    1
}
#[unsafe(no_mangle)]
pub extern "C" fn nit_held(alloc: Global, server: &mut NitServer, client: u64) -> u32 {
    1
}
#[unsafe(no_mangle)]
pub extern "C" fn nit_open_2(alloc: Global, server: &mut NitServer) -> u32 {
    1
}
"""

# What is changed in the sources or the header, and what is to be said of it.
CHANGES = [
    ("    w: u32,\n    x: i32,", "    x: i32,\n    w: u32,", "nit_tell takes"),
    ("    w: u32,", "    h: u32,", "nit_tell takes w where it is to take h"),
    ("text: &[u8]", "text: &mut [u8]", "nit_tell takes"),
    ("-> u32 {", "-> u64 {", "nit_put answers"),
    ("fn nit_put", "fn nit_get", "nit_put: in the header alone"),
    ("    pub x: u16,\n    pub y: u16,", "    pub y: u16,\n    pub x: u16,", "struct nit_pair is"),
    ("[NitPair; 3]", "[NitPair; 2]", "struct nit_told is"),
    ("[NitPair; 3]", "[NitPair; THREE]", None),
    ("[NitPair; 3]", "[NitPair; FOUR]", "struct nit_told is"),
    ("[NitPair; 3]", "[NitPair; NO_NUMBER]", "struct nit_told is"),
    ("    pub to: [NitPair; 3],", "    pub a: NitPair,\n    pub b: NitPair,\n    pub c: NitPair,",
     None),
    ("    pub to: [NitPair; 3],", "    pub a: NitPair,\n    pub b: NitPair,", "struct nit_told is"),
    ("    mark: u64,\n", "", "struct nit_server is"),
    ("LATE: u32 = 32", "LATE: u32 = 33", "NIT_LATE is 32 and not 33"),
    ("const LATE: u32 = 32;\n", "", "constant NIT_LATE: in the header alone"),
    ("uint32_t nit_put(", "uint32_t nit_set(", "nit_set: in the header alone"),
    ("#include <stddef.h>", "#include <stddef.h>\n#pragma pack(2)",
     "alignment of nit_told"),
    ("struct nit_pair {", "struct nit_plan { uint32_t w; uint64_t h; };\nstruct nit_pair {",
     "nit_plan has bytes that no field names"),
    ("server: &mut NitServer, client", "server: &NitServer, client", None),
    ("client: u64", "client: u32", "nit_held takes"),
    ("nit_held(const struct", "nit_held(struct", "nit_held takes another server"),
    ("nit_put(struct", "nit_put(const struct", "nit_put takes another server"),
    ("nit_put(struct", "nit_put(const struct", "nit_put takes [("),
    ("#define NIT_VERSION 2", "#define NIT_VERSION 3", "nit_open_2 is not of version_3"),
    ("#define NIT_VERSION 2\n", "", "nit_open_2 is not of version_None"),
    (" NIT_TEXT(NIT_LATE);", "", "nit_text has no NIT_LATE"),
]

# What an archive has, and what is to be said of it.
REST = "void nit_put(void) {} void nit_held(void) {} void nit_open_2(void) {}"
OBJECTS = [
    (f"void nit_tell(void) {{}} {REST} static void of_ours(void) {{}}", None),
    (f"void nit_tell(void) {{}} {REST} void open(void) {{}}", "open is defined"),
    (f"void abort(void); void nit_tell(void) {{ abort(); }} {REST}", "abort is wanted"),
    (f"void nit_more(void) {{}} {REST}", "nit_tell is missing"),
]

# What the Rust crate declares of it, and what is changed there.
BINDING = """
pub const DONE: u32 = 1;
pub const MOST: u32 = 4_096;
#[repr(C)]
pub struct Server {
    pub at: *mut c_void,
    pub mark: u64,
}
#[repr(C)]
#[derive(Clone, Copy)]
pub struct Pair {
    pub x: u16,
    pub y: u16,
    pub turn: i32,
}
#[repr(C)]
pub struct Told {
    pub kind: u32,
    pub to: [Pair; 3],
    pub zero: u32,
    pub need: u64,
}
extern "C" {
    pub fn nit_tell(
        server: *mut Server,
        w: u32,
        x: i32,
        text: *const c_char,
        length: usize,
    ) -> Told;
    pub fn nit_put(server: *mut Server, out: *mut u32, count: usize) -> u32;
    pub fn nit_held(server: *const Server, client: u64) -> u32;
    pub fn nit_open_2(server: *mut Server) -> u32;
}
"""

BINDINGS = [
    ("        w: u32,\n        x: i32,", "        x: i32,\n        w: u32,",
     "raw.rs: nit_tell takes"),
    ("out: *mut u32", "out: *const u32", "raw.rs: nit_put takes"),
    ("    pub mark: u64,\n", "", "raw.rs: struct nit_server is"),
    ("    pub fn nit_put", "    pub fn nit_get", "raw.rs: function nit_put: in the header alone"),
    ("DONE: u32 = 1", "DONE: u32 = 2", "raw.rs: NIT_DONE is 1 and not 2"),
    ("nit_held(server: *const", "nit_held(server: *mut", "raw.rs: nit_held takes"),
    ("4_096", "4_097", "raw.rs: NIT_MOST is 4096 and not 4097"),
]
