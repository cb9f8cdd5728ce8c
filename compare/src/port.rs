//! The proved code, where build.rs found `../target/staticlib/libport.a`.
//! A slice passes as a pointer and then its length in elements. Nothing checks these declarations
//! against the Rattle source: docs/PORT-OTHER.md is what they are kept in step with.
use crate::door::Door;

#[cfg(port)]
mod sys {
    extern "C" {
        pub fn skelfora_mine(
            log: *const u8,
            log_len: usize,
            profile: u8,
            file: *mut u8,
            room: usize,
        ) -> u64;
        pub fn skelfora_listing(
            log: *const u8,
            log_len: usize,
            profile: u8,
            out: *mut u8,
            room: usize,
        ) -> u64;
        pub fn skelfora_summary(
            log: *const u8,
            log_len: usize,
            profile: u8,
            out: *mut u8,
            room: usize,
        ) -> u64;
        pub fn skelfora_tally(log: *const u8, log_len: usize, tally: *mut u8, room: usize) -> u64;
        pub fn skelfora_tally_join(
            tally: *mut u8,
            room: usize,
            other: *const u8,
            other_len: usize,
        ) -> u64;
        pub fn skelfora_tally_relations(
            tally: *const u8,
            tally_len: usize,
            profile: u8,
            out: *mut u8,
            room: usize,
        ) -> u64;
        pub fn skelfora_replay(
            file: *const u8,
            file_len: usize,
            trace: *const u8,
            trace_len: usize,
        ) -> u64;
        pub fn skelfora_rewrite(file: *const u8, file_len: usize, out: *mut u8, room: usize)
            -> u64;
        pub fn skelfora_opening(
            file: *const u8,
            file_len: usize,
            marking: *mut u8,
            room: usize,
        ) -> u64;
        pub fn skelfora_step(
            file: *const u8,
            file_len: usize,
            marking: *mut u8,
            marking_len: usize,
            activity: u8,
        ) -> u64;
        pub fn skelfora_finish(
            file: *const u8,
            file_len: usize,
            marking: *const u8,
            marking_len: usize,
            way: *mut u8,
            room: usize,
        ) -> u64;
        pub fn skelfora_shut_by(
            file: *const u8,
            file_len: usize,
            trace: *const u8,
            trace_len: usize,
            activity: u8,
        ) -> u64;
        pub fn skelfora_marks(
            file: *const u8,
            file_len: usize,
            log: *const u8,
            log_len: usize,
            labels: *const u8,
            labels_len: usize,
        ) -> u64;
        pub fn skelfora_marks_text(
            file: *const u8,
            file_len: usize,
            log: *const u8,
            log_len: usize,
            labels: *const u8,
            labels_len: usize,
            out: *mut u8,
            room: usize,
        ) -> u64;
        pub fn skelfora_guesses_text(
            guesses: *const u8,
            guesses_len: usize,
            labels: *const u8,
            labels_len: usize,
            out: *mut u8,
            room: usize,
        ) -> u64;
        pub fn skelfora_replays(
            file: *const u8,
            file_len: usize,
            log: *const u8,
            log_len: usize,
            out: *mut u8,
            room: usize,
        ) -> u64;
        pub fn skelfora_plain_step(
            head: *const u8,
            head_len: usize,
            conditions: *const u16,
            conditions_len: usize,
            responses: *const u16,
            responses_len: usize,
            includes: *const u16,
            includes_len: usize,
            excludes: *const u16,
            excludes_len: usize,
            marking: *mut u8,
            marking_len: usize,
            activity: u8,
        ) -> u64;
        pub fn skelfora_plain_accepting(
            head: *const u8,
            head_len: usize,
            conditions: *const u16,
            conditions_len: usize,
            responses: *const u16,
            responses_len: usize,
            includes: *const u16,
            includes_len: usize,
            excludes: *const u16,
            excludes_len: usize,
            marking: *const u8,
            marking_len: usize,
        ) -> u64;
        pub fn skelfora_plain_replay(
            head: *const u8,
            head_len: usize,
            conditions: *const u16,
            conditions_len: usize,
            responses: *const u16,
            responses_len: usize,
            includes: *const u16,
            includes_len: usize,
            excludes: *const u16,
            excludes_len: usize,
            trace: *const u8,
            trace_len: usize,
        ) -> u64;
        pub fn skelfora_fill(
            file: *const u8,
            file_len: usize,
            kind: u8,
            memory: *mut u16,
            room: usize,
        ) -> u64;
        pub fn skelfora_desk_open(
            file: *const u8,
            file_len: usize,
            table: *mut u8,
            table_len: usize,
        ) -> u64;
        pub fn skelfora_desk_step(
            file: *const u8,
            file_len: usize,
            table: *mut u8,
            table_len: usize,
            place: usize,
            activity: u8,
        ) -> u64;
        pub fn skelfora_desk_close(
            file: *const u8,
            file_len: usize,
            table: *mut u8,
            table_len: usize,
            place: usize,
        ) -> u64;
        pub fn skelfora_desk_finish(
            file: *const u8,
            file_len: usize,
            table: *const u8,
            table_len: usize,
            place: usize,
            way: *mut u8,
            room: usize,
        ) -> u64;
    }
}

// Each call lends memory that Rust has borrowed for just that long, with its true length.
#[cfg(port)]
mod calls {
    use super::sys;
    use crate::value::PlainGraph;

    pub fn mine(log: &[u8], profile: u8, file: &mut [u8]) -> u64 {
        let (lent, room) = (file.as_mut_ptr(), file.len());
        unsafe { sys::skelfora_mine(log.as_ptr(), log.len(), profile, lent, room) }
    }

    pub fn listing(log: &[u8], profile: u8, out: &mut [u8]) -> u64 {
        let (lent, room) = (out.as_mut_ptr(), out.len());
        unsafe { sys::skelfora_listing(log.as_ptr(), log.len(), profile, lent, room) }
    }

    pub fn summary(log: &[u8], profile: u8, out: &mut [u8]) -> u64 {
        let (lent, room) = (out.as_mut_ptr(), out.len());
        unsafe { sys::skelfora_summary(log.as_ptr(), log.len(), profile, lent, room) }
    }

    pub fn tally(log: &[u8], tally: &mut [u8]) -> u64 {
        let (lent, room) = (tally.as_mut_ptr(), tally.len());
        unsafe { sys::skelfora_tally(log.as_ptr(), log.len(), lent, room) }
    }

    pub fn tally_join(tally: &mut [u8], other: &[u8]) -> u64 {
        let (lent, room) = (tally.as_mut_ptr(), tally.len());
        unsafe { sys::skelfora_tally_join(lent, room, other.as_ptr(), other.len()) }
    }

    pub fn tally_relations(tally: &[u8], profile: u8, out: &mut [u8]) -> u64 {
        let (lent, room) = (out.as_mut_ptr(), out.len());
        unsafe { sys::skelfora_tally_relations(tally.as_ptr(), tally.len(), profile, lent, room) }
    }

    pub fn replay(file: &[u8], trace: &[u8]) -> u64 {
        unsafe { sys::skelfora_replay(file.as_ptr(), file.len(), trace.as_ptr(), trace.len()) }
    }

    pub fn rewrite(file: &[u8], out: &mut [u8]) -> u64 {
        unsafe { sys::skelfora_rewrite(file.as_ptr(), file.len(), out.as_mut_ptr(), out.len()) }
    }

    pub fn opening(file: &[u8], marking: &mut [u8]) -> u64 {
        let (lent, room) = (marking.as_mut_ptr(), marking.len());
        unsafe { sys::skelfora_opening(file.as_ptr(), file.len(), lent, room) }
    }

    pub fn step(file: &[u8], marking: &mut [u8], activity: u8) -> u64 {
        let (lent, room) = (marking.as_mut_ptr(), marking.len());
        unsafe { sys::skelfora_step(file.as_ptr(), file.len(), lent, room, activity) }
    }

    pub fn finish(file: &[u8], marking: &[u8], way: &mut [u8]) -> u64 {
        let (lent, room) = (way.as_mut_ptr(), way.len());
        let (m, m_len) = (marking.as_ptr(), marking.len());
        unsafe { sys::skelfora_finish(file.as_ptr(), file.len(), m, m_len, lent, room) }
    }

    pub fn shut_by(file: &[u8], trace: &[u8], activity: u8) -> u64 {
        let (t, t_len) = (trace.as_ptr(), trace.len());
        unsafe { sys::skelfora_shut_by(file.as_ptr(), file.len(), t, t_len, activity) }
    }

    pub fn marks(file: &[u8], log: &[u8], labels: &[u8]) -> u64 {
        let (l, l_len) = (log.as_ptr(), log.len());
        let (b, b_len) = (labels.as_ptr(), labels.len());
        unsafe { sys::skelfora_marks(file.as_ptr(), file.len(), l, l_len, b, b_len) }
    }

    pub fn marks_text(file: &[u8], log: &[u8], labels: &[u8], out: &mut [u8]) -> u64 {
        let (f, f_len) = (file.as_ptr(), file.len());
        let (l, l_len) = (log.as_ptr(), log.len());
        let (b, b_len) = (labels.as_ptr(), labels.len());
        let (lent, room) = (out.as_mut_ptr(), out.len());
        unsafe { sys::skelfora_marks_text(f, f_len, l, l_len, b, b_len, lent, room) }
    }

    /// Guesses and replays take the same: bytes, bytes beside them, and what is lent.
    macro_rules! beside {
        ($name:ident, $function:ident) => {
            pub fn $name(first: &[u8], second: &[u8], out: &mut [u8]) -> u64 {
                let (lent, room) = (out.as_mut_ptr(), out.len());
                let (s, s_len) = (second.as_ptr(), second.len());
                unsafe { sys::$function(first.as_ptr(), first.len(), s, s_len, lent, room) }
            }
        };
    }
    beside!(guesses_text, skelfora_guesses_text);
    beside!(replays, skelfora_replays);

    pub fn plain_step(graph: &PlainGraph, marking: &mut [u8], activity: u8) -> u64 {
        let PlainGraph { head, lists } = graph;
        let [c, r, i, e] = lists;
        unsafe {
            sys::skelfora_plain_step(
                head.as_ptr(),
                head.len(),
                c.as_ptr(),
                c.len(),
                r.as_ptr(),
                r.len(),
                i.as_ptr(),
                i.len(),
                e.as_ptr(),
                e.len(),
                marking.as_mut_ptr(),
                marking.len(),
                activity,
            )
        }
    }

    /// Accepting and replay take the same: a plain graph, and bytes beside it.
    macro_rules! on_plain {
        ($name:ident, $function:ident) => {
            pub fn $name(graph: &PlainGraph, beside: &[u8]) -> u64 {
                let PlainGraph { head, lists } = graph;
                let [c, r, i, e] = lists;
                unsafe {
                    sys::$function(
                        head.as_ptr(),
                        head.len(),
                        c.as_ptr(),
                        c.len(),
                        r.as_ptr(),
                        r.len(),
                        i.as_ptr(),
                        i.len(),
                        e.as_ptr(),
                        e.len(),
                        beside.as_ptr(),
                        beside.len(),
                    )
                }
            }
        };
    }
    on_plain!(plain_accepting, skelfora_plain_accepting);
    on_plain!(plain_replay, skelfora_plain_replay);

    pub fn fill(file: &[u8], kind: u8, memory: &mut [u16]) -> u64 {
        let (lent, room) = (memory.as_mut_ptr(), memory.len());
        unsafe { sys::skelfora_fill(file.as_ptr(), file.len(), kind, lent, room) }
    }

    pub fn desk_open(file: &[u8], table: &mut [u8]) -> u64 {
        let (lent, room) = (table.as_mut_ptr(), table.len());
        unsafe { sys::skelfora_desk_open(file.as_ptr(), file.len(), lent, room) }
    }

    pub fn desk_step(file: &[u8], table: &mut [u8], place: usize, e: u8) -> u64 {
        let (lent, room) = (table.as_mut_ptr(), table.len());
        unsafe { sys::skelfora_desk_step(file.as_ptr(), file.len(), lent, room, place, e) }
    }

    pub fn desk_close(file: &[u8], table: &mut [u8], place: usize) -> u64 {
        let (lent, room) = (table.as_mut_ptr(), table.len());
        unsafe { sys::skelfora_desk_close(file.as_ptr(), file.len(), lent, room, place) }
    }

    pub fn desk_finish(file: &[u8], table: &[u8], place: usize, way: &mut [u8]) -> u64 {
        let (lent, room) = (way.as_mut_ptr(), way.len());
        let (t, t_len) = (table.as_ptr(), table.len());
        unsafe { sys::skelfora_desk_finish(file.as_ptr(), file.len(), t, t_len, place, lent, room) }
    }
}

#[cfg(port)]
pub fn door() -> Option<Door> {
    Some(Door {
        name: "port",
        mine: calls::mine,
        listing: calls::listing,
        summary: calls::summary,
        replay: calls::replay,
        rewrite: calls::rewrite,
        opening: calls::opening,
        step: calls::step,
        finish: calls::finish,
        shut_by: calls::shut_by,
        marks: calls::marks,
        marks_text: calls::marks_text,
        guesses_text: calls::guesses_text,
        replays: calls::replays,
        plain_step: calls::plain_step,
        plain_accepting: calls::plain_accepting,
        plain_replay: calls::plain_replay,
        fill: calls::fill,
        desk_open: calls::desk_open,
        desk_step: calls::desk_step,
        desk_close: calls::desk_close,
        desk_finish: calls::desk_finish,
        tally: calls::tally,
        tally_join: calls::tally_join,
        tally_relations: calls::tally_relations,
    })
}

#[cfg(not(port))]
pub fn door() -> Option<Door> {
    None
}
