//! Lays the real files out in OUT_DIR, beside the shims, at build time.
//!
//! The real files come from the checkout that XARXA_SRC names (the folder that has `src/neighbor.rs`). Their text is
//! copied unchanged; to three of them a probe is appended after the last line, so that the host can see private state.

use std::path::{Path, PathBuf};
use std::{env, fs};

mod sha256;

const REAL: &[&str] = &[
    "config.rs",
    "error.rs",
    "neighbor.rs",
    "route.rs",
    "time.rs",
    "iface/mod.rs",
    "iface/slaac.rs",
    "storage/mod.rs",
    "wire/mod.rs",
    "wire/ethernet.rs",
    "wire/icmpv6.rs",
    "wire/ip.rs",
    "wire/ipv6.rs",
    "wire/ipv6ext.rs",
    "wire/ndisc.rs",
    "wire/ndiscoption.rs",
];

const SHIM: &[&str] = &[
    "driver.rs",
    "macros.rs",
    "pool.rs",
    "stack.rs",
    "storage/assembler.rs",
    "storage/bounded_deque.rs",
    "storage/bounded_vec.rs",
    "storage/maybe_box.rs",
    "storage/slab.rs",
    "storage/vec.rs",
    "wire/parser.rs",
];

/// (real file, probe appended to its copy)
const PROBE: &[(&str, &str)] = &[
    ("time.rs", "time.rs"),
    ("neighbor.rs", "neighbor.rs"),
    ("iface/slaac.rs", "slaac.rs"),
];

/// Document 01's sizes.
const SIZES: &[(&str, usize)] = &[
    ("IFACE_COUNT", 4),
    ("IFACE_ADDR_COUNT", 8),
    ("ROUTE_COUNT", 8),
    ("SLAAC_PREFIX_COUNT", 4),
    ("SLAAC_ROUTER_COUNT", 2),
    ("NEIGHBOR_CACHE_COUNT", 16),
    ("PENDING_QUEUE_COUNT", 8),
];

/// Not used by anything here; `config.rs` names them.
const OTHER_SIZES: &[&str] = &[
    "MULTICAST_GROUP_COUNT",
    "SIXLOWPAN_ADDRESS_CONTEXT_COUNT",
    "TX_TIMESTAMP_QUEUE_COUNT",
    "UDP_SOCKET_COUNT",
    "RAW_SOCKET_COUNT",
    "TCP_SOCKET_COUNT",
    "TCP_LISTENER_COUNT",
    "UDP_RX_QUEUE_COUNT",
    "RAW_RX_QUEUE_COUNT",
    "TCP_LISTENER_BACKLOG",
    "ASSEMBLER_MAX_SEGMENT_COUNT",
    "REASSEMBLY_BUFFER_COUNT",
    "DNS_MAX_QUERY_COUNT",
    "DNS_MAX_RESULT_COUNT",
    "DNS_MAX_SERVER_COUNT",
    "DNS_MAX_NAME_SIZE",
    "DHCP_MAX_DNS_SERVER_COUNT",
    "DHCP_OPTIONS_BUF_SIZE",
    "DHCP_SERVER_LEASE_COUNT",
    "DHCP_SERVER_CLIENT_ID_SIZE",
];

const INDICES: &[&str] = &[
    "dns_query_index",
    "iface_index",
    "raw_index",
    "tcp_index",
    "tcp_listener_index",
    "udp_index",
];

/// The checkout: XARXA_SRC, else the default places relative to the repository's root.
fn checkout(here: &Path) -> PathBuf {
    println!("cargo:rerun-if-env-changed=XARXA_SRC");
    let root = here.join("../..");
    let places = match env::var_os("XARXA_SRC") {
        Some(named) => vec![PathBuf::from(named)],
        None => vec![root.join("../shared/docs/src"), root.join("docs/src")],
    };
    for place in &places {
        if place.join("src/neighbor.rs").is_file() {
            return place.clone();
        }
    }
    eprintln!("no src/neighbor.rs in {places:?}: set XARXA_SRC to the folder that has src/neighbor.rs (an absolute path)");
    std::process::exit(1)
}

fn read(path: &Path) -> String {
    println!("cargo:rerun-if-changed={}", path.display());
    fs::read_to_string(path).unwrap_or_else(|e| panic!("{}: {e}", path.display()))
}

fn write(path: &Path, text: &str) {
    fs::create_dir_all(path.parent().unwrap()).unwrap();
    fs::write(path, text).unwrap_or_else(|e| panic!("{}: {e}", path.display()));
}

fn main() {
    let here = PathBuf::from(env::var("CARGO_MANIFEST_DIR").unwrap());
    let out = PathBuf::from(env::var("OUT_DIR").unwrap());
    let tree = out.join("tree");
    let from = checkout(&here).join("src");
    println!("cargo:rerun-if-changed=build.rs");
    println!("cargo:rerun-if-changed=sha256.rs");

    let mut sources = String::new();
    for file in REAL {
        let real = read(&from.join(file));
        sources += &format!("src/{file} {} lines {}\n", real.lines().count(), sha256::digits(real.as_bytes()));
        let mut text = real.clone();
        if let Some((_, probe)) = PROBE.iter().find(|(f, _)| f == file) {
            text += "\n// The probe: everything above this line is the real file.\n";
            text += &read(&here.join("probe").join(probe));
            assert!(text.starts_with(&real));
        }
        write(&tree.join(file), &text);
    }
    for file in SHIM {
        let text = read(&here.join("shim").join(file));
        write(&tree.join(file), &text);
    }
    write(&out.join("sources.txt"), &sources);

    // What the repository's own build script writes for `config.rs`.
    let mut config = String::new();
    for (name, size) in SIZES {
        config += &format!("pub const {name}: usize = {size};\n");
    }
    for name in OTHER_SIZES {
        config += &format!("pub const {name}: usize = 4;\n");
    }
    for name in INDICES {
        config += &format!("#[allow(non_camel_case_types)]\npub type {name} = u8;\n");
    }
    write(&out.join("config.rs"), &config);

    // The modules by absolute path: an included file may hold `mod` lines with a path.
    let mut root = String::new();
    for (vis, name, file) in [
        ("#[macro_use] mod", "macros", "macros.rs"),
        ("pub mod", "config", "config.rs"),
        ("pub mod", "driver", "driver.rs"),
        ("pub mod", "error", "error.rs"),
        ("pub mod", "iface", "iface/mod.rs"),
        ("mod", "neighbor", "neighbor.rs"),
        ("mod", "pool", "pool.rs"),
        ("pub mod", "route", "route.rs"),
        ("mod", "stack", "stack.rs"),
        ("mod", "storage", "storage/mod.rs"),
        ("pub mod", "time", "time.rs"),
        ("pub mod", "wire", "wire/mod.rs"),
    ] {
        root += &format!("#[path = {:?}]\n{vis} {name};\n", tree.join(file));
    }
    write(&out.join("root.rs"), &root);
}
