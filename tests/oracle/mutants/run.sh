#!/usr/bin/env bash
# The exerciser's teeth: each mutant is one small fault put into a copy of
# store.rs, and `exercise` must fail on it. Not part of the gate (some minutes).
#   mutants/run.sh [SECONDS [NAME]]     default: 6 seconds each, all
# Status 1 if a mutant is not caught that should be, or an edit does not apply.
#
# Four survive, and should: the fault does not touch demand 3 in a history that
# threads one store value and one appender.
#   record-without-number   file id and chunk already fix the record
#   trust-other-always      a valid header always describes its own body
#   cursor-not-moved        only the choice of the next chunk changes
#   stale-not-tested        there is one store value, so none is stale
survivors=" record-without-number trust-other-always cursor-not-moved stale-not-tested "
set -u -o pipefail
cd "$(dirname "$0")/.." || exit 2
seconds=${1:-6}
only=${2:-}
work=target/mutants/work # the copy; its build goes to target/mutants/built
bad=0
rm -rf $work
mkdir -p $work
cp -r Cargo.toml Cargo.lock device_api services driver $work/

try() { # NAME, OLD TEXT, NEW TEXT
    [ -z "$only" ] || [ "$only" = "$1" ] || return 0
    cp services/src/store.rs $work/services/src/store.rs
    python3 - $work/services/src/store.rs "$2" "$3" <<'P' || { echo "$1: EDIT FAILED"; bad=1; return 0; }
import sys
path, old, new = sys.argv[1:4]
text = open(path).read()
assert text.count(old) == 1, (text.count(old), old)
open(path, "w").write(text.replace(old, new))
P
    cargo build --release --offline --locked -q --manifest-path $work/Cargo.toml --target-dir target/mutants/built --bin exercise >$work/build.log 2>&1 ||
        { echo "$1: BUILD FAILED"; head -5 $work/build.log; bad=1; return 0; }
    local out verdict=caught
    out=$(timeout 120 target/mutants/built/release/exercise 77 "$seconds" 2>&1)
    [ $? -ne 0 ] || verdict=survived
    case $survivors in *" $1 "*) [ $verdict = survived ] && verdict="survived, as it should" ;; *) [ $verdict = caught ] || bad=1 ;; esac
    echo "$1: $verdict  $(grep -m1 "^minimised\|panicked" <<<"$out" | cut -c1-110)"
}

try no-invalidate 'media.owned_write(base(target), sector)?;
        let mut head = self.head;' 'let mut head = self.head;'
try header-before-body 'let mut head = self.head;
        for k in 0..head.body()' 'let mut head = self.head;
        { let mut h = head; h.generation += 1; h.encode(sector); media.owned_write(base(target), sector)?; }
        for k in 0..head.body()'
try record-without-file-id '&& get_u32(sector, 12) == id' '&& (id > 0)'
try record-without-store-id '&& get_u64(sector, 4) == self.head.id' ''
try record-without-number '&& get_u32(sector, 16) == number' '&& number < u32::MAX'
try oldest-not-spared 'let keep = self.writer.map(|writer| writer.id);' 'let keep: Option<u32> = None;'
try create-spares-open 'Some(dir) if self.remove_oldest(media, &dir, None, sector)?.is_some() => {}' 'Some(dir) if self.remove_oldest(media, &dir, self.writer.map(|w| w.id), sector)?.is_some() => {}'
try reopened-not-partial 'self.extend(store, media, Some(records), sector)?;' '{ let _ = records; self.extend(store, media, None, sector)?; }'
try reopened-writes-on 'records => Tail::Reopened(records),' 'records => Tail::At(records),'
try id-not-advanced 'id + 1,
                    cursor,' 'id,
                    cursor,'
try format-on-current 'let copy = newest.map_or(0, |(copy, _)| 1 - copy);' 'let copy = newest.map_or(0, |(copy, _)| copy);'
try format-magic-first 'sector[..MAGIC.len()].fill(0);
    media' 'media'
try format-generation-1 'generation: newest.map_or(0, |(_, generation)| generation) + 1,' 'generation: 1,'
try mount-B-on-equal-or-older 'if b.generation > a.generation => (1, b, Some(a)),' 'if b.generation >= 1 && a.generation >= 1 => (1, b, Some(a)),'
try error-leaves-appender-open 'if written.is_err() {
            self.tail = Tail::Closed;' 'if written.is_err() {'
try delete-keeps-links 'if usize::from(get_u16(s, 4 * i) & OWNER) == slot + 1 {' 'if usize::from(get_u16(s, 4 * i) & OWNER) == slot + 1 && i > 0 {'
try delete-keeps-writer 'if self.writer.is_some_and(|writer| writer.id == id) {' 'if false && self.writer.is_some_and(|writer| writer.id == id) {'
try skip-unlisted 'if !changing && holds == Some(self.head.crcs[k]) {' 'if !changing {'
try trust-other-always '.filter(|o| (o.id, o.chunks, o.chunk) == (head.id, head.chunks, head.chunk))' ''
try oldest-is-largest 'oldest.is_none_or(|(_, _, o)| id < o)' 'oldest.is_none_or(|(_, _, o)| id > o)'
try reader-ignores-partial 'self.end = (position + 1 < self.chunks).then(|| partial.unwrap_or(store.head.chunk));' 'let _ = partial; self.end = (position + 1 < self.chunks).then(|| store.head.chunk);'
try reader-last-from-lower 'if last.is_none_or(|(p, _)| link.position > p) {' 'if last.is_none_or(|(p, _)| link.position < p) {'
try extend-partial-one-less 'partial: partial.then_some(records),' 'partial: partial.then_some(records.saturating_sub(1)),'
try cursor-not-moved 'let (next_id, cursor) = (store.head.next_id, (next + 1) % store.head.chunks);' 'let (next_id, cursor) = (store.head.next_id, store.head.cursor);'
try stale-not-tested 'if (now.copy, now.head) != (self.copy, self.head) {' 'if false {'
rm -rf $work
exit $bad
