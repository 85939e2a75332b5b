#!/usr/bin/env bash
# Lists the lines of src/ where an older form may stand, point by point (docs/DESIGN-PASS.md says what
# the points are). With a commit as argument, those of that commit; else those of the work tree.
set -euo pipefail
cd "$(dirname "$0")/.."

# The lines that one pattern finds, under the number of its point.
lines() {
  local point=$1 pattern=$2
  shift 2
  { git grep -nE "$pattern" "$@" -- 'crates/*/src/*' || true; } | sed "s/^/$point  /"
}

# 1: an answer by a flag beside a value, two flags for a kind, a number that stands for none or for a kind
lines 1 '&mut [a-zA-Z].*\) -> bool|, bool\)>|let mut [a-z]+ = (true|false);|return 0;|^ +255$|\{ 255 \}|=> 255|(board|port): 255|Unknown,$|(layer|number): u8|unwrap_or\((ABSENT|HIGHEST_PORT|NO|NONE)|=> &\[\]|None => (None|Err|false)' "$@"
# 2: functions, types and constants that have, or may have, a twin
lines 2 '^fn (until|spaces|run_length|same|equal|line_head|wire_state|fill|copy_first)\(|^pub\(crate\) fn (read|write)\(|^pub struct (PathBook|RunBook)|^impl Book for|fn (next_line|next_word|next|in_range|fits|most)\(|^pub (struct|enum) (End|EndNumbers|Wire|WireEntry|Word.*|Class) \{|memory\.len\(\) < |^const (NO_END|NO_WIRE|BLANK|BOARDS)|const (WIDEST|PORTS|ROWS|LONGEST|HIGHEST_PORT|BOARDS)\b.* = |let refusal = fault|let \(boards, wires\)' "$@"
# 3: loops over an index, or with a place or a count kept by hand
lines 3 'for [a-z_]+ in 0\.\.|\.enumerate\(\)|while |^ +[a-z]+ \+= [a-z0-9]+;|^ +[a-z]+ = line\.number;' "$@"
# 4: equality, conversion and printing by hand
lines 4 '^fn (same|equal|why|hex_value|push_hex|name_of|byte_of|line_head|wire_state|keyword|print_end|print_records)\(|fn push_(text|number|yes|count|memory)\(|pub fn (name|refusal)\(|^impl .* for .* \{|^impl<.* for .* \{|assert_eq!\(rt; [a-z]+\.[a-z]+, [a-z]+\)|\.board != |\bas (u8|usize)\b' "$@"
# 5: what a value stands for, or what is true of it, written into contracts
lines 5 'Tracks |ports_of |rows_of |self\.(now|old|new)\.(taken|last|rows)\b|kind_of |result\.(taken|last|rows)\b' "$@"
# 6: buffers with a length or a place beside them, tables, byte vectors for text
lines 6 '^    [a-z]+: \[.*; [0-9]+\],|^    (pub )?(len|start|end|at|wires): (u8|usize),|&mut Vec<u8>|-> .*Vec<u8>' "$@"
# 7: a choice of what to run by a kind, functions as values
lines 7 'match (call\.name|entry|line_head.*) \{|fn\(|dyn |impl Fn' "$@"
