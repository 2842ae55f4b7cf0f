package wagtenib_test

import (
	"fmt"

	"wagtenib/bindings/go/wagtenib"
)

// A client has a leaf, its audit path and the root of a signed tree head. It checks that the tree has the leaf at that
// index.
func ExampleVerifyInclusion() {
	first, second := wagtenib.LeafHash([]byte("first")), wagtenib.LeafHash([]byte("second"))
	root, err := wagtenib.Root([]wagtenib.Hash{first, second})
	if err != nil {
		panic(err)
	}
	fmt.Println(wagtenib.VerifyInclusion(second, 1, 2, []wagtenib.Hash{first}, root))
	fmt.Println(wagtenib.VerifyInclusion(second, 0, 2, []wagtenib.Hash{first}, root))
	// Output:
	// <nil>
	// wagtenib: the proof leads to another root
}
