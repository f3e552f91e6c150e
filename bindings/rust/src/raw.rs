//! The functions of include/jallumere.h.

/// Declares them. Where the build script found no core, each has a name that says what is missing: nothing has that name,
/// so the linker says it to whoever links a program that calls one, and nobody else is troubled.
macro_rules! functions {
    ($(fn $name:ident($($parameter:ident: $kind:ty),*);)*) => {
        #[allow(clashing_extern_declarations)] // of the names that say what is missing, which all functions share
        extern "C" {
            $(
                #[cfg_attr(
                    jallumere_core = "missing",
                    link_name = "MISSING_target_staticlib_libreplica_a__build_it_by_jallumere_simulate_or_set_JALLUMERE_CORE"
                )]
                #[cfg_attr(
                    jallumere_core = "other_machine",
                    link_name = "THE_PROVED_CORE_IS_X86_64_CODE__build_for_an_x86_64_target"
                )]
                pub fn $name($($parameter: $kind),*) -> u64;
            )*
        }
    };
}

functions! {
    fn jallumere_version();
    fn jallumere_is_model();
    fn jallumere_state_length(n: u64, s: u64, c: u64);
    fn jallumere_start(n: u64, s: u64, c: u64, group: u64, replica: u64, state: *mut u8, state_length: usize);
    fn jallumere_step(
        n: u64, s: u64, c: u64,
        state: *mut u8, state_length: usize, message: *const u8, message_length: usize, out: *mut u8, out_length: usize
    );
    fn jallumere_good(n: u64, s: u64, c: u64, state: *const u8, state_length: usize);
    fn jallumere_order(n: u64, s: u64, c: u64, state: *mut u8, state_length: usize);
    fn jallumere_field(n: u64, s: u64, c: u64, field: u64, state: *const u8, state_length: usize);
    fn jallumere_group_view(n: u64, s: u64, c: u64, group: u64, state: *const u8, state_length: usize);
    fn jallumere_entry(n: u64, s: u64, c: u64, position: u64, field: u64, state: *const u8, state_length: usize);
    fn jallumere_read(n: u64, s: u64, message: *const u8, message_length: usize);
    fn jallumere_message_length(n: u64, s: u64, bytes: *const u8, length: usize);
    fn jallumere_write(
        n: u64, s: u64, kind: u64, to_group: u64, to_mask: u64, from_group: u64, from_replica: u64, view: u64,
        numbers: *const u64, numbers_count: usize, views: *const u8, views_length: usize,
        entries: *const u8, entries_length: usize, out: *mut u8, out_length: usize
    );
    fn jallumere_digest(start: u64, bytes: *const u8, length: usize);
}
