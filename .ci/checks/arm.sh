# For the check-* scripts that try programs for ARM on another machine, under an emulator: its
# compilers, and what runs a program. On Debian they are gcc-aarch64-linux-gnu, g++-aarch64-linux-gnu
# and qemu-user.
arm_c=aarch64-linux-gnu-gcc
arm_cpp=aarch64-linux-gnu-g++
emulator=(qemu-aarch64 -L /usr/aarch64-linux-gnu)

# Whether all of them are there. If not, it says that ARM is left out.
has_arm() {
  local tool
  for tool in "$arm_c" "$arm_cpp" "${emulator[0]}"; do
    if ! command -v "$tool" > /dev/null; then
      echo "left out: ARM, since there is no $tool"
      return 1
    fi
  done
}
