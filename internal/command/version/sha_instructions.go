//go:build wagtenib_sha_instructions

package version

// option names a build option that changes what is proved (dist/README.md).
const option = ", with SHA instructions, which are not proved"
