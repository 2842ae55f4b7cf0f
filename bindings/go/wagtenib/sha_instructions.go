//go:build linux && (amd64 || arm64) && wagtenib_sha_instructions

package wagtenib

// #cgo CFLAGS: -DWAGTENIB_SHA_INSTRUCTIONS
// #cgo nocallback wagtenib_has_sha_instructions
// #cgo noescape wagtenib_has_sha_instructions
// #include "wagtenib.h"
import "C"

// HasSHAInstructions reports whether SHA-256 uses the processor's SHA instructions in place of the proved code. That
// needs the build tag wagtenib_sha_instructions and a processor that has them. These instructions are not part of the
// proof.
func HasSHAInstructions() bool { return bool(C.wagtenib_has_sha_instructions()) }
