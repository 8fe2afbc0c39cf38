# SPDX-License-Identifier: MIT OR Apache-2.0
# shellcheck shell=bash disable=SC2034
# Where the kit is (the folder of rt's bin/), and the folder of its clang, ld.lld and llvm-ar. To be sourced; where there
# is no rt, neither folder is there.
kit=$(dirname "$(dirname "$(readlink -f "$(command -v rt || echo /none/bin/rt)")")")
tools=$kit/toolchain/bin
