# shellcheck shell=bash disable=SC2034
# Sourced where something is linked with the library: which compilers, and what runs the programs that they make.

# The library is x86-64: elsewhere what links it is cross-compiled and emulated.
if [[ $(uname -m) == x86_64 ]]; then
  c_compiler=gcc
  cpp_compiler=g++
  compiler_packages=(gcc g++ libc6-dev)
  emulator=()
else
  c_compiler=x86_64-linux-gnu-gcc
  cpp_compiler=x86_64-linux-gnu-g++
  compiler_packages=(gcc-x86-64-linux-gnu g++-x86-64-linux-gnu libc6-dev-amd64-cross)
  emulator=(qemu-x86_64 -L /usr/x86_64-linux-gnu)
fi
