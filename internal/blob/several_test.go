package blob

import (
	"context"
	"errors"
	"path/filepath"
	"testing"
)

// TestSeveralLocks: each name at one address has a lock of its own, even if two names differ only in case.
func TestSeveralLocks(t *testing.T) {
	ctx, address := context.Background(), "file:"+filepath.Join(t.TempDir(), "states")
	for _, name := range []string{"a.example/1", "A.example/1", "../a", ""} {
		r, err := LockOf(ctx, address, name)
		if err != nil {
			t.Fatal(err)
		}
		defer r.Close()
		if err := r.Create(ctx, "of "+name); err != nil {
			t.Errorf("%q: %v", name, err)
		}
	}
	for _, name := range []string{"a.example/1", "A.example/1", "../a", ""} {
		r, err := LockOf(ctx, address, name)
		if err != nil {
			t.Fatal(err)
		}
		defer r.Close()
		if text, err := r.Read(ctx); err != nil || text != "of "+name {
			t.Errorf("%q has %q, %v", name, text, err)
		}
	}
	// SHA-256 of x
	const x = "2d711642b726b04401627ca9fbac32f5c8530fb1903cc4db02258717921a4881"
	for _, test := range []struct{ address, own string }{
		{"file:/var/states/", "file:/var/states/" + x},
		{"etcd://u:p@h:1,i:2/w/v", "etcd://u:p@h:1,i:2/w/v/" + x},
		{"postgres://h/d?log=w&sslmode=disable", "postgres://h/d?log=w%2F" + x + "&sslmode=disable"},
	} {
		if own, err := addressOf(test.address, "x"); err != nil || own != test.own {
			t.Errorf("%s: %s, %v", test.address, own, err)
		}
	}
	for _, address := range []string{"file:", "etcd://h:1", "etcd:///w", "postgres://h/d", "postgres://h/d?log=a&log=b",
		"s3://h/b", "x", ""} {
		if _, err := LockOf(ctx, address, "x"); !errors.Is(err, ErrAddress) {
			t.Errorf("%q: %v", address, err)
		}
	}
}
