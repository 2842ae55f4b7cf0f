//go:build phases

package signer

// hooks holds a function that a Guarded calls between two operations. A test sets it. No program is built with it.
type hooks struct{ phase func(string) }

func (g *Guarded) phase(name string) {
	if g.test.phase != nil {
		g.test.phase(name)
	}
}
