# Which program the tools of a package ask. To be read by a script of bash that has set `top`, the folder share/ipanema.

# Writes the file of the program: the one that was installed.
program_of() {
  readlink -f -- "$top/../../lib/ipanema/program"
}
