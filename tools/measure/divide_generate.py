#!/usr/bin/env python3
"""Divides the processors' time of `generate N` (default 32,000) in the built program among its crates, by what `perf` samples, and
prints the share of each part. A function that was made part of its only caller counts with that: layout with translate, a run's
threads with the library's.

tools/measure/divide_generate.py PROGRAM [N]"""
import collections
import os
import re
import subprocess
import sys
import tempfile

NUMBER = "32000"
PARTS = {
    "making the image": "report_text generated_flow",
    "reach": "flow_discovery vax_decode operand_specifiers indexmap",
    "blocks": "micro_lower operand_programs micro_ops program_codegen byte_sequences compute_sequences flag_codegen code_runs cc_liveness "
              "exception_records alpha_encode vax_form",
    "laying out, the map": "translate branch_layout address_map",
    "making ready, running": "tie_switch tie_interpreter tie_operands prepared_code shared_memory memory_core run_threads alpha_meaning "
                             "alpha_machine system_model vt_words std",
    "the sum, the report, the rest of the call": "vest_cli vest_runs vest_files vt_outside command_words clap vest",
}
LINE = re.compile(r"\s*([\d.]+)%\s+\[(.)\]\s+(\S+)")


def part_of(kind, symbol):
    if kind == "k":
        return "the kernel"
    crate = symbol.split("::")[0]
    for part, crates in PARTS.items():
        if crate in crates.split():
            return part
    return "taking, moving and freeing memory"


def main():
    program, number = os.path.abspath(sys.argv[1]), sys.argv[2] if len(sys.argv) > 2 else NUMBER
    shares, symbols = collections.Counter(), []
    with tempfile.TemporaryDirectory() as room:
        samples = os.path.join(room, "samples")
        quiet = {"stdout": subprocess.DEVNULL, "stderr": subprocess.DEVNULL, "check": True}
        subprocess.run(["perf", "record", "-F", "5000", "-o", samples, program, "generate", number], **quiet)
        report = subprocess.run(["perf", "report", "-i", samples, "--sort", "symbol", "--stdio"], capture_output=True, text=True, check=True)
    for found in map(LINE.match, report.stdout.splitlines()):
        if found:
            share, symbol = float(found[1]), found[3]
            shares[part_of(found[2], symbol)] += share
            symbols.append((share, symbol))
    for part, share in shares.most_common():
        print(f"{share:5.1f} %  {part}")
    print("most of it: " + ", ".join(f"{symbol} {share:.1f} %" for share, symbol in symbols[:3]))


if __name__ == "__main__":
    main()
