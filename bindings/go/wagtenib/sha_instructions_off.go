//go:build linux && (amd64 || arm64) && !wagtenib_sha_instructions

package wagtenib

// HasSHAInstructions reports whether SHA-256 uses the processor's SHA instructions in place of the proved code. That
// needs the build tag wagtenib_sha_instructions, which this build does not have, and a processor that has them.
func HasSHAInstructions() bool { return false }
