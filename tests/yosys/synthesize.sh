#!/usr/bin/env bash
# Writes the netlists of tests/yosys/blocks anew into the folder given, as tests/vectors keeps them: yosys_NAME.il.
# Another Yosys than 0.23 may name and order things otherwise, so the vectors stay as they are stored.
set -euo pipefail
folder=$(realpath "$1")
cd "$(dirname "$0")/blocks"

# netlist NAME BLOCK TOP [PASSES]
netlist() {
  yosys -q -p "read_verilog $2.v; hierarchy -check -top $3; ${4:-} ; write_rtlil $folder/yosys_$1.il"
}

netlist ff_of_000 ff_with_en_and_async_reset ff_with_en_and_async_reset "proc; opt_clean"
netlist program_mux program_mux program_mux "proc; opt"
netlist program_mux_gates program_mux program_mux "proc; opt; simplemap"
netlist frame_counter frame_counter frame_counter "proc; opt; memory -nomap"
netlist gain gain gain "proc; opt"
netlist limiter limiter limiter "proc; opt -mux_undef"
netlist low_pass low_pass low_pass "proc; opt"
netlist two_ears two_ears two_ears "proc; opt"
netlist two_ears_flat two_ears two_ears "proc; flatten; opt"
# A memory object, its words and its read port.
netlist gain_table gain_table gain_table "proc; opt"
# All-x values stand short in Yosys's text (`16'x`): once as they are, once with the undefined bits set before.
netlist delay_line_undefined delay_line delay_line "proc; opt; memory -nomap"
netlist delay_line delay_line delay_line "proc; opt; memory -nomap; opt -mux_undef; setundef -zero -params"
# The mask of a first write port has no bits, which Yosys writes 0'x: refused. `memory -nomap` leaves no such port.
netlist write_port delay_line delay_line "proc; opt"

# Before `proc`: the processes as the Verilog reader leaves them, and with asynchronous resets found.
netlist ff_process ff_with_en_and_async_reset ff_with_en_and_async_reset
netlist ff_process_arst ff_with_en_and_async_reset ff_with_en_and_async_reset "proc_clean; proc_rmdead; proc_prune; proc_init; proc_arst"
netlist program_mux_process program_mux program_mux
netlist limiter_processes limiter limiter
netlist volume_hold_processes volume_hold volume_hold
netlist two_ears_processes two_ears two_ears
# A write to a memory stands in its process as `memwr`, with attributes before it: refused. `proc_memwr` makes it a cell, `memory_collect` joins the ports.
netlist memwr delay_line delay_line
netlist delay_line_processes delay_line delay_line "proc_memwr; memory_collect"
# Two root switches: refused. `proc_mux` makes cells of the switches, `proc_clean` takes them out of the process.
netlist root_switches two_choices two_choices
netlist two_choices_processes two_choices two_choices "proc_mux; proc_clean"
