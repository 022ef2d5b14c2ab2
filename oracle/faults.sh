#!/bin/bash
# Would the differential runs notice a fault? One at a time is put into a copy of the plain program, and a reduced run has to
# end in a mismatch.
#     bash oracle/faults.sh [--no-engine]
# prints a line a fault and what noticed it. Many faults outside the domain of demand 2 show only beside the engine.
# Exit status: 0 all noticed; 1 one was not; 2 something is missing.
set -euo pipefail
. "$(dirname "$0")/setup.sh"

case ${1:-} in
    "") ;;
    --no-engine) without_engine ;;
    *) fail "unknown option $1" ;;
esac
need_packages
need_engine

# A copy to put faults into, built beside the other. Its driver takes the plain program from a dynamic library, so that a
# fault has only that built anew.
work=$CARGO_TARGET_DIR/faults_in
export CARGO_TARGET_DIR=$CARGO_TARGET_DIR/faults_out
export DECKPLOVER_HEADER=${DECKPLOVER_HEADER:-$root/include/deckplover.h}
rm -rf "$work"
mkdir -p "$work"
cp -r "$oracle"/{.cargo,Cargo.toml,raft_crate,plain,engine,diff,ratios} "$work"
printf '\n[lib]\ncrate-type = ["dylib"]\n' >> "$work/plain/Cargo.toml"

build() { (cd "$work" && cargo build -q --profile faults -j1 "$@"); }
libraries=$CARGO_TARGET_DIR/faults:$(rustc --print target-libdir)
compare() { LD_LIBRARY_PATH=$libraries "$CARGO_TARGET_DIR/faults/diff" run --size 0; }

step "the program as it is"
build -p diff "${features[@]}" || fail "the build failed"
compare > "$work/log" || fail "a mismatch with no fault: see $work/log"

count=0
missed=0

# in_call NAME SED: the edit inside one function alone.
in_call() { echo "/^\\(pub \\)\\?fn $1(/,/^}/ { $2; }"; }

# lost CALL RULE: a refusal is taken out of a call's list.
lost() { in_call "$1" "/, $2(/d"; }

# before CALL RULE OTHER: in a call's list OTHER goes down to stand behind RULE, which is then given before it.
before() { in_call "$1" "/, $3(/ { h; d; }; /, $2(/ G"; }

# fault WHO FILE NAME SED...: puts a fault into FILE. WHO is `crate` where the run without the engine notices it too, else
# `engine`.
fault() {
    local who=$1 file=$2 name=$3
    shift 3
    [ "$who" = crate ] || [ "$with_engine" = yes ] || return 0
    count=$((count + 1))
    cp "$oracle"/plain/src/*.rs "$work/plain/src/"
    local edits=() edit
    for edit in "$@"; do edits+=(-e "$edit"); done
    sed -i "${edits[@]}" "$work/plain/src/$file"
    ! cmp -s "$oracle/plain/src/$file" "$work/plain/src/$file" || fail "the fault changes nothing: $name"
    build -p plain 2> "$work/errors" || fail "the fault does not compile: $name; see $work/errors"
    local status=0
    compare > "$work/log" 2>&1 || status=$?
    if [ "$status" -eq 1 ] && grep -q '^MISMATCH' "$work/log"; then
        echo "noticed: $name ($(tail -n 1 "$work/log" | sed 's/^ *//' | cut -c1-60))"
    else
        missed=$((missed + 1))
        echo "NOT NOTICED (status $status): $name"
    fi
}

step "faults in the log's state rules and set-up"
fault crate log.rs "a start of 0 may have a term" "$(in_call start_rule 's/index_is_0 == term_is_0/index_is_0 || !term_is_0/')"
fault engine log.rs "a start above 0 may have term 0" "$(in_call start_rule 's/index_is_0 == term_is_0/!index_is_0 || term_is_0/')"
fault crate log.rs "applied may be below start" "$(in_call committed_rule 's/start_below && //')"
fault engine log.rs "applied may be above committed" "$(in_call committed_rule 's/ && applied_below//')"
fault engine log.rs "committed may be above last" "$(in_call committed_rule 's/ && committed_below//')"
fault crate log.rs "committed has to be below last" "$(in_call committed_rule 's/log\.committed <= last/log.committed < last/')"
fault crate log.rs "applied may be above persisted" "$(in_call persisted_rule 's/applied_below && //')"
fault engine log.rs "persisted may be offset" "$(in_call persisted_rule 's/log\.persisted < log\.offset/log.persisted <= log.offset/')"
fault crate log.rs "settled may be a record short" "$(in_call stores_rule 's/<= room(settled)/<= room(settled) + 1/')"
fault crate log.rs "pending may be a record short" "$(in_call stores_rule 's/<= room(pending)/<= room(pending) + 1/')"
fault engine log.rs "a spare word is room for a record" "$(in_call room 's|store\.len() / RECORD_WORDS|store.len().div_ceil(RECORD_WORDS)|')"
fault crate log.rs "last may be above the limit" "$(in_call limit_rule 's/last(log) <= Log::LIMIT/true/')"
fault crate log.rs "the limit is u64::MAX" 's/LIMIT: u64 = u64::MAX - 1/LIMIT: u64 = u64::MAX/'
fault engine log.rs "the limit is u64::MAX - 2" 's/LIMIT: u64 = u64::MAX - 1/LIMIT: u64 = u64::MAX - 2/'
for call in term first_index last_index last_term commit_info is_up_to_date find_conflict_by_term maybe_append append commit_to \
    applied_to maybe_persist stable_entries slice entries has_next_entries_since next_entries_since; do
    fault crate log.rs "$call does not look at the state rules" "$(in_call "$call" 's/broken(log, settled, pending)/false/')"
done
fault engine log.rs "maybe_commit does not look at the state rules" "$(in_call maybe_commit 's/broken(log, settled, pending)/false/')"
fault engine log.rs "set-up takes a start of 0 with a term" "$(in_call new '/start_rule(/d')"
fault crate log.rs "set-up takes a last below start" "$(lost new last_below_start)"
fault crate log.rs "set-up takes a last above the limit" "$(lost new last_above_limit)"
fault crate log.rs "set-up takes a settled store that is too short" "$(lost new settled_too_short)"
fault engine log.rs "set-up takes zero terms" "$(lost new zero_term_in_settled)"
fault engine log.rs "set-up gives 3 before 1" "$(before new zero_term_in_settled settled_too_short)"
fault engine log.rs "set-up looks at terms behind the last record" "$(in_call zero_term_in_settled 's/\.take(count as usize)//')"
fault engine log.rs "set-up wants a pending store" "$(in_call new 's/^ *(3, .*/        (1, _pending.is_empty()),\n&/')"
fault crate log.rs "set-up has nothing persisted" "$(in_call new 's/persisted: last/persisted: start/')"
fault crate log.rs "set-up has everything committed" "$(in_call new 's/committed: start/committed: last/')"

step "faults in the log's look-ups"
fault crate log.rs "the start has no term" "$(in_call term_at 's/return log\.start_term/return 0/')"
fault crate log.rs "the last record has no term" "$(in_call outside 's/i > last(log)/i >= last(log)/')"
fault crate log.rs "an index below start has a term" "$(in_call outside 's/below_start || //')"
fault crate log.rs "words behind the last record are read" "$(in_call outside 's/ || above_last//')"
fault crate log.rs "the last settled record is looked up in pending" "$(in_call term_at 's/i < log\.offset/i.saturating_add(1) < log.offset/')"
fault crate log.rs "the first pending record is looked up in settled" "$(in_call term_at 's/i < log\.offset/i <= log.offset/')"
fault crate log.rs "a body is read as a term" "$(in_call term_in 's/record\[0\]/record[1]/')"
fault crate log.rs "first_index is the start" "$(in_call first_index 's/Ok(first(log))/Ok(log.start)/')"
fault crate log.rs "last_index is the last settled record" "$(in_call last_index 's/Ok(last(log))/Ok(log.offset - 1)/')"
fault crate log.rs "last_term is the last settled record's" "$(in_call last_term 's/last(log)/log.offset - 1/')"
fault crate log.rs "commit_info has the last term" "$(in_call commit_info 's/pending, log\.committed)/pending, last(log))/')"
fault crate log.rs "commit_info has applied" "$(in_call commit_info 's/Ok((log\.committed/Ok((log.applied/')"
fault crate log.rs "is_up_to_date asks for more than last" "$(in_call is_up_to_date 's/i >= last(log)/i > last(log)/')"
fault crate log.rs "is_up_to_date takes any index with the last term" "$(in_call is_up_to_date 's/ && as_long//')"
fault crate log.rs "is_up_to_date takes a long log with an older term" "$(in_call is_up_to_date 's/(equal && as_long)/as_long/')"
fault crate log.rs "is_up_to_date wants a long log with a later term too" "$(in_call is_up_to_date 's/later || (equal && as_long)/(later || equal) \&\& as_long/')"
fault crate log.rs "find_conflict_by_term keeps its comment's promise" "$(in_call largest_not_above 's/log\.start\.saturating_sub(1)/first(log)/')"
fault crate log.rs "find_conflict_by_term goes down to start alone" "$(in_call largest_not_above 's/log\.start\.saturating_sub(1)/log.start/')"
fault crate log.rs "find_conflict_by_term gives start - 1 for every index below it" "$(in_call largest_not_above 's/before_start\.min(i)/before_start/')"
fault crate log.rs "find_conflict_by_term wants a smaller term" "$(in_call largest_not_above 's/ <= t;/ < t;/')"
fault crate log.rs "find_conflict_by_term gives the smallest" "$(in_call largest_not_above 's/\.rev()//')"
fault crate log.rs "find_conflict_by_term has a term beyond last" "$(in_call find_conflict_by_term 's/(i, None)/(i, Some(0))/')"
fault crate log.rs "find_conflict_by_term has no term at last" "$(in_call find_conflict_by_term 's/i > last(log)/i >= last(log)/')"
fault crate log.rs "find_conflict_by_term gives the term asked for" "$(in_call find_conflict_by_term 's/Some(term)/Some(t)/')"

step "faults in maybe_append"
fault crate log.rs "an append that always gives 5" "$(in_call maybe_append 's/previous_differs(.*)),/true),/')"
fault crate log.rs "an append that says (0, idx + count) and stores nothing" "$(in_call maybe_append 's/let conflict = .*/let conflict = 0;/')"
fault crate log.rs "an append that cuts on every message" "$(in_call maybe_append 's/let conflict = .*/let conflict = if run.is_empty() { 0 } else { idx.saturating_add(1) };/')"
fault crate log.rs "everything after a run that matches is cut" "$(in_call maybe_append 's/^    commit_up_to/    if conflict == 0 \&\& log.offset <= end \&\& end < last(log) {\n        log.count = end + 1 - log.offset;\n    }\n&/')"
fault crate log.rs "term 0 taken as absent, so no match" "$(in_call previous_differs 's/term_at(/term == 0 || &/')"
fault crate log.rs "commits to commit without the minimum" "$(in_call commit_up_to 's/commit\.min(end)/commit/')"
fault crate log.rs "persisted is lowered without a conflict" "$(in_call maybe_append 's/^    commit_up_to/    log.persisted = log.persisted.min(end);\n&/')"
fault engine log.rs "a message may end within a record" "$(lost maybe_append length_not_of_three)"
fault crate log.rs "a message's indices may be any" "$(lost maybe_append not_rising_after)"
fault crate log.rs "a message may end above the limit" "$(lost maybe_append end_above_limit)"
fault crate log.rs "a message may end one above the limit" "$(in_call end_above_limit 's/end > u128::from(Log::LIMIT)/end > u128::from(Log::LIMIT) + 1/')"
fault engine log.rs "an empty message may stand above the limit" "$(in_call end_above_limit 's/end > /!run.is_empty() \&\& &/')"
fault engine log.rs "a message may begin at any index" "$(in_call not_rising_after 's/u128::from(idx) + 1/run.first().map_or(0, |word| u128::from(*word))/')"
fault crate log.rs "only the first index of a run is looked at" "$(in_call not_rising_from 's/into_iter()\.zip/into_iter().take(1).zip/')"
fault crate log.rs "a zero term in a message" "$(lost maybe_append zero_term_in_run)"
fault crate log.rs "only the first term of a run is looked at" "$(in_call zero_term_in_run 's/iter()\.any/iter().take(1).any/')"
fault crate log.rs "refusal 4 is lost" "$(lost maybe_append previous_outside)"
fault engine log.rs "refusal 4 only above last" "$(in_call previous_outside 's/outside(log, idx)/idx > last(log)/')"
fault crate log.rs "refusal 4 only below start" "$(in_call previous_outside 's/outside(log, idx)/idx < log.start/')"
fault engine log.rs "refusal 4 with any term" "$(in_call previous_outside 's/term_is_0 && //')"
fault crate log.rs "refusal 5 is lost" "$(lost maybe_append previous_differs)"
fault crate log.rs "refusal 6 is lost" "$(lost maybe_append conflict_committed)"
fault crate log.rs "a conflict at committed is let through" "$(in_call conflict_committed 's/conflict <= log\.committed/conflict < log.committed/')"
fault crate log.rs "6 without a conflict" "$(in_call conflict_committed 's/nonzero && //')"
fault engine log.rs "refusal 7 is lost" "$(lost maybe_append conflict_without_room)"
fault engine log.rs "7 without a conflict" "$(in_call conflict_without_room 's/nonzero && //')"
fault crate log.rs "7 with one record's room left" "$(in_call no_room 's/ > room(pending)/ >= room(pending)/')"
fault engine log.rs "7 one record late" "$(in_call no_room 's/ > room(pending)/ > room(pending) + 1/')"
fault engine log.rs "a message gives 2 before 1" "$(before maybe_append length_not_of_three broken)"
fault engine log.rs "a message gives 3 before 2" "$(before maybe_append zero_term_in_run end_above_limit)"
fault engine log.rs "a message gives 4 before 3" "$(before maybe_append previous_outside zero_term_in_run)"
fault crate log.rs "a message gives 6 before 5" "$(before maybe_append conflict_committed previous_differs)"
fault engine log.rs "a message gives 7 before 6" "$(before maybe_append conflict_without_room conflict_committed)"
fault crate log.rs "the conflict is the last difference" "$(in_call conflict_of 's/\.find(differs)/.filter(differs).last()/')"
fault crate log.rs "bodies are compared" "$(in_call conflict_of 's/record\.term != term_at.*;/(record.term, Some(\&record.body)) != (term_at(log, settled, pending, record.index), pending.get(word_of(pending_place(log, record.index)) as usize + 1));/')"
fault crate log.rs "the rest of the run begins one record late" "$(in_call rest_of 's/>= from/> from/')"
fault crate log.rs "the whole run becomes pending" "$(in_call rest_of 's/record\.index >= from/true/')"
fault crate log.rs "pending is kept when settled is cut" "$(in_call kept_before 's/from\.saturating_sub(log\.offset)/from.checked_sub(log.offset).unwrap_or(log.count)/')"
fault crate log.rs "offset stays when settled is cut" "$(in_call cut '/log\.offset = from;/d')"
fault crate log.rs "records behind the run stay" "$(in_call cut 's/log\.count = count;/log.count = log.count.max(count);/')"
fault crate log.rs "persisted stays after a cut" "$(in_call resolve '/log\.persisted = /d')"
fault crate log.rs "persisted is lowered to the conflict" "$(in_call resolve 's/conflict\.saturating_sub(1)/conflict/')"
fault crate log.rs "persisted rises to the conflict" "$(in_call resolve 's/log\.persisted\.min(before)/before/')"
fault crate log.rs "commits to the end of the run whatever commit says" "$(in_call commit_up_to 's/commit\.min(end)/end/')"
fault crate log.rs "commits up to the log's last" "$(in_call maybe_append 's/commit_up_to(log, commit, end)/commit_up_to(log, commit, last(log))/')"
fault crate log.rs "committed falls" "$(in_call commit_up_to 's/log\.committed\.max(known)/known/')"
fault crate log.rs "a message commits nothing" "$(in_call maybe_append '/commit_up_to(/d')"
fault crate log.rs "a message answers the log's last" "$(in_call maybe_append 's/Ok((conflict, end))/Ok((conflict, last(log)))/')"
fault crate log.rs "a message answers no conflict" "$(in_call maybe_append 's/Ok((conflict, end))/Ok((0, end))/')"
fault crate log.rs "bodies are not stored" "$(in_call write_records '/words\[1\] = /d')"
fault crate log.rs "term and body change places" "$(in_call write_records 's/words\[0\]/words[2 - 1]/; s/words\[1\]/words[0]/')"
fault crate log.rs "records are stored one place late" "$(in_call write_records 's/skip(place as usize)/skip(place as usize + 1)/')"
fault crate log.rs "a word behind the last record is written" "$(in_call write_records 's/^    let places/    if let Some(word) = pending.get_mut(word_of(place) as usize + 2 * records.len()) {\n        *word = 0;\n    }\n&/')"
fault crate log.rs "a refused message leaves its records" "$(in_call maybe_append 's/^    \])?;/    ]).inspect_err(|_| write_records(pending, 0, \&triples(run)))?;/')"

step "faults in append"
fault crate log.rs "append may end within a record" "$(lost append length_not_of_three)"
fault crate log.rs "append's indices may be any" "$(lost append not_rising_alone)"
fault crate log.rs "append may start at 0" "$(lost append starts_at_0)"
fault crate log.rs "append may end above the limit" "$(lost append run_above_limit)"
fault engine log.rs "append's end is counted one too far" "$(in_call run_above_limit 's/end\.saturating_sub(1)/end/')"
fault engine log.rs "append takes a zero term" "$(lost append zero_term_in_run)"
fault crate log.rs "append below committed" "$(lost append start_committed)"
fault crate log.rs "append at committed is let through" "$(in_call start_committed 's/from <= log\.committed/from < log.committed/')"
fault crate log.rs "append leaves gaps" "$(lost append leaves_gap)"
fault crate log.rs "append leaves a gap of one" "$(in_call leaves_gap 's/end(log)/end(log).saturating_add(1)/')"
fault crate log.rs "append behind last is a gap" "$(in_call leaves_gap 's/end(log)/last(log)/')"
fault engine log.rs "append has no refusal 7" "$(lost append no_room)"
fault engine log.rs "append below persisted" "$(lost append start_persisted)"
fault engine log.rs "append at persisted is let through" "$(in_call start_persisted 's/from <= log\.persisted/from < log.persisted/')"
fault engine log.rs "append gives 7 before a gap" "$(before append no_room leaves_gap)"
fault engine log.rs "append gives 8 before 7 at or below persisted" "$(before append start_persisted no_room)"
fault engine log.rs "append gives 6 before 3" "$(before append start_committed zero_term_in_run)"
fault crate log.rs "append compares terms" "$(in_call append 's/^    cut(/    if conflict_of(log, settled, pending, run) == 0 {\n        return Ok(last(log));\n    }\n&/')"
fault crate log.rs "append answers its first index" "$(in_call append 's/Ok(last(log))/Ok(from)/')"
fault crate log.rs "an empty append answers 0" "$(in_call append 's/return last_index(log, settled, pending)/&.map(|_| 0)/')"
fault crate log.rs "append counts what is settled as persisted" "$(in_call append 's/^    cut(.*/&\n    log.persisted = log.offset - 1;/')"
fault crate log.rs "a refused append leaves its records" "$(in_call append 's/^    \])?;/    ]).inspect_err(|_| write_records(pending, 0, \&triples(run)))?;/')"

step "faults in commit, apply, persist, settle"
fault crate log.rs "commit_to above last" "$(lost commit_to above_last)"
fault crate log.rs "commit_to one above last" "$(in_call above_last 's/last(log)/last(log).saturating_add(1)/')"
fault crate log.rs "commit_to last is refused" "$(in_call above_last 's/i > last(log)/i >= last(log)/')"
fault crate log.rs "commit_to lowers committed" "$(in_call commit_to 's/if i > log\.committed/if true/')"
fault crate log.rs "maybe_commit does not look at the term" "$(in_call maybe_commit 's/ && term_agrees//')"
fault crate log.rs "maybe_commit of what is committed" "$(in_call maybe_commit 's/log\.committed < i/log.committed <= i/')"
fault engine log.rs "maybe_commit without the upper bound" "$(in_call maybe_commit 's/ && up_to_last//')"
fault crate log.rs "maybe_commit stops before last" "$(in_call maybe_commit 's/i <= last(log)/i < last(log)/')"
fault crate log.rs "maybe_commit says yes and commits nothing" "$(in_call maybe_commit '/log\.committed = i;/d')"
fault crate log.rs "applied_to above committed and persisted" "$(lost applied_to applied_too_high)"
fault crate log.rs "applied_to above persisted" "$(in_call applied_too_high 's/log\.committed\.min(log\.persisted)/log.committed/')"
fault crate log.rs "applied_to above committed" "$(in_call applied_too_high 's/log\.committed\.min(log\.persisted)/log.persisted/')"
fault crate log.rs "applied_to committed is refused" "$(in_call applied_too_high 's/i > bound/i >= bound/')"
fault crate log.rs "applied falls" "$(lost applied_to applied_too_low)"
fault crate log.rs "applied_to applied is refused" "$(in_call applied_too_low 's/i < log\.applied/i <= log.applied/')"
fault crate log.rs "applied_to(0) is refused" "$(in_call applied_too_low 's/nonzero && //')"
fault crate log.rs "applied_to(0) makes applied 0" "$(in_call applied_to 's/if i != 0/if true/')"
fault crate log.rs "maybe_persist of a pending record" "$(in_call maybe_persist 's/i < log\.offset/i <= log.offset/')"
fault crate log.rs "maybe_persist of what is persisted" "$(in_call maybe_persist 's/log\.persisted < i/log.persisted <= i/')"
fault crate log.rs "maybe_persist does not look at the term" "$(in_call maybe_persist 's/ && term_agrees//')"
fault crate log.rs "maybe_persist says yes and persists nothing" "$(in_call maybe_persist '/log\.persisted = i;/d')"
fault engine log.rs "stable_entries has no refusal 7" "$(lost stable_entries settled_without_room)"
fault engine log.rs "stable_entries gives 7 with one record's room left" "$(in_call settled_without_room 's/after > room(settled)/after >= room(settled)/')"
fault crate log.rs "stable_entries with nothing pending" "$(lost stable_entries nothing_pending)"
fault crate log.rs "stable_entries with any last record" "$(lost stable_entries another_last)"
fault crate log.rs "stable_entries with another index" "$(in_call another_last 's/another_index || //')"
fault crate log.rs "stable_entries with another term" "$(in_call another_last 's/ || another_term//')"
fault engine log.rs "stable_entries gives 10 before 7" "$(before stable_entries another_last settled_without_room)"
fault crate log.rs "stable_entries copies nothing" "$(in_call copy_to_settled '/copy_from_slice/d')"
fault crate log.rs "stable_entries copies a record too few" "$(in_call copy_to_settled 's/take(log\.count as usize)/take(log.count as usize - 1)/')"
fault crate log.rs "stable_entries copies a record too many" "$(in_call copy_to_settled 's/take(log\.count as usize)/take(log.count as usize + 1)/')"
fault crate log.rs "stable_entries copies over the first records" "$(in_call copy_to_settled 's/\.skip(place as usize)/.skip(0 * place as usize)/')"
fault crate log.rs "stable_entries leaves the records pending" "$(in_call stable_entries '/log\.count = 0;/d')"
fault crate log.rs "stable_entries persists" "$(in_call stable_entries 's/^    log\.count = 0;/    log.persisted = i;\n&/')"
fault crate log.rs "a refused stable_entries copies" "$(in_call stable_entries 's/^    \])?;/    ]).inspect_err(|_| copy_to_settled(log, settled, pending))?;/')"

step "faults in slices"
fault crate log.rs "slice with low above high" "$(lost slice low_above_high)"
fault crate log.rs "an empty slice is refused" "$(in_call low_above_high 's/low > high/low >= high/')"
fault crate log.rs "slice below the first index" "$(lost slice low_below_first)"
fault crate log.rs "slice from the start" "$(in_call low_below_first 's/first(log)/log.start/')"
fault crate log.rs "slice beyond last" "$(lost slice high_above_end)"
fault crate log.rs "slice up to last + 1 is refused" "$(in_call high_above_end 's/high > end(log)/high >= end(log)/')"
fault crate log.rs "slice gives 8 before 9" "$(before slice high_above_end low_below_first)"
fault crate log.rs "slice gives 9 before low > high" "$(before slice low_below_first low_above_high)"
fault crate log.rs "an empty slice is never refused" "$(in_call slice 's/^    first_refusal/    if low == high {\n        return Ok(Part::Empty);\n    }\n&/')"
fault crate log.rs "a slice runs over the store boundary" "$(in_call settled_part 's/high\.min(log\.offset)/high/')"
fault engine log.rs "a slice from offset is taken from settled" "$(in_call part 's/low < log\.offset/low <= log.offset/')"
fault crate log.rs "a slice of settled begins one record late" "$(in_call settled_part 's/word_of(place)/word_of(place + 1)/')"
fault crate log.rs "a slice of pending begins one record late" "$(in_call pending_part 's/word_of(place)/word_of(place + 1)/')"
fault crate log.rs "entries beyond last is refused" "$(in_call entries 's/i > last(log)/false/')"
fault crate log.rs "entries from last is empty" "$(in_call entries 's/i > last(log)/i >= last(log)/')"
fault crate log.rs "entries leaves out the last record" "$(in_call entries 's/i, end(log))/i, last(log))/')"
fault crate log.rs "next_entries_since goes beyond persisted" "$(in_call next_range 's/log\.committed\.min(log\.persisted)/log.committed/')"
fault crate log.rs "next_entries_since goes beyond committed" "$(in_call next_range 's/log\.committed\.min(log\.persisted)/log.persisted/')"
fault crate log.rs "has_next_entries_since is one early" "$(in_call next_range 's/high > low/high >= low/')"
fault crate log.rs "has_next_entries_since is one late" "$(in_call next_range 's/known\.saturating_add(1)/known/')"
fault crate log.rs "next_entries_since begins below the first index" "$(in_call next_range 's/after_s\.max(after_start)/after_s/')"
fault engine log.rs "has_next_entries_since(u64::MAX) wraps" "$(in_call next_range 's/s\.checked_add(1)?/s.wrapping_add(1)/')"

step "faults in the quorums and the leader's step"
fault crate quorum.rs "n/2 taken as a majority" "$(in_call quorum 's/half + 1/half.max(1)/')"
fault crate quorum.rs "half the voters, rounded up" "$(in_call quorum 's|n / 2|n.div_ceil(2) - 1|')"
fault crate quorum.rs "a quorum that answers 0" "$(in_call committed_index 's/(acks\[place\], false)/(0 * acks[place], false)/')"
fault crate quorum.rs "a vote that stays Pending" "$(in_call vote_result 's/Won/Pending/; s/Lost/Pending/')"
fault crate quorum.rs "the smallest acknowledgements first" "$(in_call acknowledgements_falling '/reverse()/d')"
fault crate quorum.rs "a missing acknowledgement counts as 1" "$(in_call acknowledgement 's/unwrap_or(0)/unwrap_or(1)/')"
fault crate quorum.rs "any set's index is free" "$(in_call committed_index 's/acks\[place\], false/acks[place], true/')"
fault crate quorum.rs "an empty set answers 0" "$(in_call committed_index 's/(u64::MAX, true)/(0, true)/')"
fault crate quorum.rs "an empty set has lost" "$(in_call vote_result '/is_empty/,/}/ s/Won/Lost/')"
fault crate quorum.rs "a lost vote stays Pending" "$(in_call vote_result 's/VoteResult::Lost/VoteResult::Pending/')"
fault crate quorum.rs "Won only above the quorum" "$(in_call vote_result 's/if yes >= quorum/if yes > quorum/')"
fault crate quorum.rs "missing votes are no hope" "$(in_call vote_result 's/yes + missing >= quorum/yes >= quorum/')"
fault crate quorum.rs "a voter without a row votes no" "$(in_call vote 's/and_then(|row| row\.vote)/map_or(Some(false), |row| row.vote)/')"
fault crate quorum.rs "joint takes the larger index" "$(in_call joint_committed_index 's/incoming_index\.min/incoming_index.max/')"
fault crate quorum.rs "joint's flag if either is" "$(in_call joint_committed_index 's/incoming_flag && outgoing_flag/incoming_flag || outgoing_flag/')"
fault crate quorum.rs "joint is won if either is" "$(in_call joined 's/Won && outgoing/Won || outgoing/')"
fault crate quorum.rs "joint is lost if both are" "$(in_call joined 's/Lost || outgoing/Lost \&\& outgoing/')"
fault crate quorum.rs "is_singleton does not look at outgoing" "$(in_call joint_is_singleton 's/ && no_outgoing//')"
fault crate quorum.rs "is_singleton of no voter" "$(in_call joint_is_singleton 's/incoming\.len() == 1/incoming.len() <= 1/')"
fault crate quorum.rs "contains looks at incoming alone" "$(in_call joint_contains 's/in_incoming || in_outgoing/in_incoming/')"
fault crate quorum.rs "contains looks at outgoing alone" "$(in_call joint_contains 's/in_incoming || in_outgoing/in_outgoing/')"
fault crate quorum.rs "ids lists an id of both halves twice" "$(in_call joint_ids '/ids\.dedup();/d')"
fault crate quorum.rs "ids does not sort" "$(in_call joint_ids '/ids\.sort();/d')"
fault engine quorum.rs "eight voters" 's/VOTERS: usize = 7/VOTERS: usize = 8/'
fault engine quorum.rs "six voters" 's/VOTERS: usize = 7/VOTERS: usize = 6/'
fault engine quorum.rs "65 rows" 's/ROWS: usize = 64/ROWS: usize = 65/'
fault engine quorum.rs "63 rows" 's/ROWS: usize = 64/ROWS: usize = 63/'
fault engine quorum.rs "any number of voters" "$(lost voters_checked too_many_voters)"
fault crate quorum.rs "a repeated voter id" "$(lost voters_checked repeated_voter)"
fault engine quorum.rs "any number of rows" "$(lost rows_checked too_many_rows)"
fault engine quorum.rs "a repeated row id" "$(lost rows_checked repeated_row)"
fault crate quorum.rs "only ids side by side are repeated" "$(in_call repeats 's/ids\[\.\.at\]/ids[at.saturating_sub(1)..at]/')"
fault engine quorum.rs "an id of both halves is repeated" "$(in_call joint_checked 's/voters_checked(outgoing)/voters_checked(\&[incoming, outgoing].concat())/')"
fault crate quorum.rs "the incoming half may be broken" "$(in_call joint_checked '/voters_checked(incoming)/d')"
fault crate quorum.rs "the outgoing half may be broken" "$(in_call joint_checked 's/voters_checked(outgoing)/Ok(())/')"
for call in majority_committed_index majority_vote_result joint_committed_index joint_vote_result joint_is_singleton; do
    fault crate quorum.rs "$call of broken voters" "$(in_call "$call" '/voters_checked(\|joint_checked(/d')"
done
for call in joint_contains joint_ids; do
    fault engine quorum.rs "$call of broken voters" "$(in_call "$call" '/joint_checked(/d')"
done
for call in majority_committed_index majority_vote_result joint_committed_index joint_vote_result; do
    fault engine quorum.rs "$call of broken rows" "$(in_call "$call" '/rows_checked(/d')"
done
fault crate leader.rs "the leader asks the incoming half alone" 's/joint_committed_index(incoming, outgoing, rows)/majority_committed_index(incoming, rows)/'
fault engine leader.rs "the leader gives 12 before 1" '/log\.check(settled, pending)?;/d'

step "faults in the window"
fault crate inflights.rs "every flight at most to is freed" "$(in_call dropped 's/take_while(goes)/filter(goes)/')"
fault crate inflights.rs "free_to frees smaller flights alone" "$(in_call dropped 's/\*flight <= to/*flight < to/')"
fault crate inflights.rs "a window that only counts" "$(in_call add '/\*word = inflight;/d; s/inflight: u64/_&/')"
fault crate inflights.rs "free_first_one frees one" "$(in_call free_first_one 's/Some(first) => .*/Some(_) => {\n            drop_front(window, ring, 1);\n            Ok(())\n        }/')"
fault engine inflights.rs "free_first_one of an empty queue goes back to 0" "$(in_call free_first_one 's/None => Ok(())/None => maybe_free_buffer(window, ring)/')"
fault crate inflights.rs "free_first_one of an empty queue is refused" "$(in_call free_first_one 's/None => Ok(())/None => Err(11)/')"
fault crate inflights.rs "emptying leaves a deferred cap" "$(in_call drop_front '/take_deferred(window);/d')"
fault engine inflights.rs "start is 0 whenever the queue empties" "$(in_call drop_front 's/^ *take_deferred(window);/&\n        window.start = 0;/')"
fault engine inflights.rs "start stays when a deferred cap takes effect" "$(in_call take_deferred '/window\.start = 0;/d')"
fault crate inflights.rs "a deferred cap stays after it took effect" "$(in_call take_deferred '/window\.deferred = None;/d')"
fault crate inflights.rs "the front does not move" "$(in_call drop_front '/window\.start = /d')"
fault crate inflights.rs "full does not look at a deferred cap" "$(in_call is_full 's/at_cap || at_deferred/at_cap/')"
fault crate inflights.rs "full looks at a deferred cap alone" "$(in_call is_full 's/at_cap || at_deferred/at_deferred/')"
fault crate inflights.rs "full one above a deferred cap" "$(in_call is_full 's/window\.count >= deferred/window.count > deferred/')"
fault crate inflights.rs "the ring is used modulo the cap" "$(in_call place 's/u128::from(length(ring))/u128::from(window.cap)/')"
fault crate inflights.rs "add puts one first" "$(in_call add 's/place(window, ring, window\.count)/place(window, ring, 0)/')"
fault crate inflights.rs "add counts nothing" "$(in_call add '/window\.count = /d')"
fault crate inflights.rs "add to a full window" "$(lost add is_full)"
fault crate inflights.rs "add gives 11 before 13" "$(before add is_full broken)"
fault crate inflights.rs "add writes the next place too" "$(in_call add 's/^    window\.count = .*/    let next = place(window, ring, window.count + 1) as usize;\n    ring[next] = inflight;\n&/')"
fault crate inflights.rs "a refused add writes a word" "$(in_call add 's/^    \])?;/    ]).inspect_err(|_| ring.iter_mut().for_each(|word| *word = inflight))?;/')"
fault crate inflights.rs "an equal cap keeps a deferred one" "$(in_call set_cap '/cap == window\.cap/,/}/ s/window\.deferred = None;//')"
fault crate inflights.rs "an equal cap goes back to 0" "$(in_call set_cap '/cap == window\.cap/,/}/ s/window\.deferred = None;/&\n        window.start = 0;/')"
fault crate inflights.rs "a larger cap keeps a deferred one" "$(in_call set_cap '/cap > window\.cap/,/}/ s/window\.deferred = None;//')"
fault crate inflights.rs "a larger cap waits for the queue to empty" "$(in_call set_cap 's/cap > window\.cap/& \&\& is_empty(window)/')"
fault crate inflights.rs "a larger cap goes back to 0" "$(in_call set_cap '/cap > window\.cap/,/}/ s/window\.deferred = None;/&\n        window.start = 0;/')"
fault crate inflights.rs "a smaller cap takes effect at once" "$(in_call set_cap 's/else if is_empty(window)/else if window.count <= cap/')"
fault crate inflights.rs "a smaller cap waits beside an empty queue" "$(in_call set_cap 's/else if is_empty(window)/else if false/')"
fault engine inflights.rs "start stays when an empty queue shrinks" "$(in_call set_cap '/window\.start = 0;/d')"
fault crate inflights.rs "a smaller cap does not replace a deferred one" "$(in_call set_cap 's/Some(cap)/window.deferred.or(Some(cap))/')"
fault crate inflights.rs "set_cap above the ring" "$(lost set_cap cap_above_ring)"
fault engine inflights.rs "set_cap gives 7 before 13" "$(before set_cap cap_above_ring broken)"
fault crate inflights.rs "a new window with a cap above the ring" "$(in_call new 's/cap_above_ring(cap, ring)/false/')"
fault engine inflights.rs "a cap one above the ring" "$(in_call cap_above_ring 's/length(ring)/length(ring) + 1/')"
fault crate inflights.rs "a cap as large as the ring is refused" "$(in_call cap_above_ring 's/cap > length/cap >= length/')"
fault crate inflights.rs "reset forgets a deferred cap" "$(in_call reset 's/take_deferred(window);/window.deferred = None;/')"
fault engine inflights.rs "reset keeps the start" "$(in_call reset '/window\.start = 0;/d')"
fault crate inflights.rs "reset keeps the flights" "$(in_call reset '/window\.count = 0;/d')"
fault crate inflights.rs "maybe_free_buffer of a queue with flights" "$(in_call maybe_free_buffer 's/is_empty(window)/window.count <= 1/')"
fault engine inflights.rs "maybe_free_buffer does nothing" "$(in_call maybe_free_buffer '/window\.start = 0;/d')"
fault crate inflights.rs "count is the cap" "$(in_call count 's/Ok(window\.count)/Ok(window.cap)/')"
fault crate inflights.rs "a count above the cap" "$(in_call broken 's/count_above_cap || //')"
fault engine inflights.rs "a cap above the ring" "$(in_call broken 's/cap_above_ring || //')"
fault engine inflights.rs "a start outside the ring" "$(in_call broken 's/start_outside_ring || //')"
fault engine inflights.rs "a start at the ring's end" "$(in_call start_outside_ring 's/window\.start >= length/window.start > length/')"
fault engine inflights.rs "an empty ring with a start" "$(in_call start_outside_ring 's/window\.start != 0/false/')"
fault crate inflights.rs "a deferred cap that is not below the cap" "$(in_call broken 's/deferred_not_below_cap || //')"
fault crate inflights.rs "a deferred cap that is the cap" "$(in_call deferred_not_below_cap 's/deferred >= window/deferred > window/')"
fault crate inflights.rs "a deferred cap beside an empty queue" "$(in_call broken 's/ || deferred_beside_empty//')"
for call in set_cap add free_to free_first_one reset maybe_free_buffer full count; do
    fault crate inflights.rs "$call of a broken window" "$(in_call "$call" 's/broken(window, ring)/false/')"
done

step "faults in the words"
fault crate words.rs "a settled part is called pending" "$(in_call part_words 's/\[1, low/[2, low/')"
fault crate words.rs "a part's length in records" "$(in_call part_words 's/2 \* (end - low)/end - low/')"
fault crate words.rs "Won and Lost change places" "$(in_call vote_word 's/=> 2/=> 0 + 1/; s/=> 1/=> 2/')"
fault crate words.rs "a missing acknowledgement's number is read" "$(in_call peers 's/(row\[1\] != 0)\.then_some(row\[2\])/Some(row[2])/')"
fault crate words.rs "a no is read as a yes" "$(in_call peers 's/Some(false)/Some(true)/')"
fault crate words.rs "clear keeps the outgoing half" "$(in_call joint_clear 's/quorum::joint_clear(incoming, outgoing)?/(vec![0u64; 0], outgoing)/')"
fault engine words.rs "clear refuses broken halves" "$(in_call joint_clear 's/^        let (incoming/        quorum::joint_checked(incoming, outgoing)?;\n&/')"
fault engine words.rs "the check of voters finds nothing" "$(in_call voters_checked 's/number(.*)/0/')"
fault engine words.rs "the check of both halves looks at the incoming one alone" "$(in_call joint_checked 's/quorum::joint_checked(incoming, outgoing)/quorum::voters_checked(incoming)/')"
fault engine words.rs "the check of rows takes their words for ids" "$(in_call rows_checked 's/quorum::rows_checked(&peers(rows))/quorum::voters_checked(rows)/')"
fault engine words.rs "no room for an answer gives 2" 's/^        return 1;/        return 2;/'
fault crate words.rs "a refused call writes its answer" 's/^    number(call().map(|words| \*room = words))/    let answer = call();\n    if answer.is_err() {\n        room.fill(0);\n    }\n    number(answer.map(|words| *room = words))/'
fault crate words.rs "a word behind the answer is written" 's/^    let Some(room) = .*/    if let Some(word) = slice.get_mut(N) {\n        *word = 0;\n    }\n&/'
fault crate words.rs "a word behind the state is written" 's/^        slice\[\.\.N\]\.copy_from_slice.*/&\n        if let Some(word) = slice.get_mut(N) {\n            *word = 0;\n        }/'
fault crate words.rs "a refused call writes its state back" 's/^    let answer = call(&mut state)?;/    let answer = call(\&mut state);/' 's/^    Ok(answer)/    answer/'

step "$((count - missed)) of $count faults noticed"
[ "$missed" -eq 0 ]
