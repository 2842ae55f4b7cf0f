//go:build !phases

package signer

// hooks is empty in a program. Tests are built with the tag phases, and use the hooks of phases_hooked.go.
type hooks struct{}

// phase does nothing in a program.
func (g *Guarded) phase(string) {}
