//go:build !wagtenib_sha_instructions

package version

// option is empty, because the build has no option that changes what is proved.
const option = ""
