package main

import (
	"crypto/sha256"
	"encoding/base64"
	"errors"
	"io"
	"os"
	"path/filepath"
	"slices"
	"testing"
	"time"

	"wagtenib/internal/testkit"
	"wagtenib/internal/watch"
	"wagtenib/internal/watch/namesearch"
)

// FuzzSettings: a config file is refused with errUsage, or its settings have names that can be written and read again,
// times within their bounds, and logs with the IDs of their keys.
func FuzzSettings(f *testing.F) {
	key := base64.StdEncoding.EncodeToString(testkit.NewAuthority("Test CA 1").Issue("a.b").Certificate.RawSubjectPublicKeyInfo)
	example, err := os.ReadFile("../../release/ctwatch.conf")
	must(f, err)
	f.Add(example)
	f.Add([]byte("name example.org\nname =www.example.org # exact\nname 192.0.2.7\npause 2s\nsilent-after 2h\n"))
	f.Add([]byte("name bücher.example\nlog https://log.example/a " + key + "\nunread mentioned\n"))
	f.Add([]byte("name a.b\nlog tiled+https://log.example/a " + key + " other.example\nexpect-issuer A CA\nquorum 2"))
	f.Add([]byte("name a.b\nmail a@b.c\ncommand /bin/true x\nwebhook https://a.b\nlisten\nfrom-start true"))
	f.Fuzz(func(t *testing.T, content []byte) {
		path := filepath.Join(t.TempDir(), "settings")
		must(t, os.WriteFile(path, content, 0o600))
		s, err := parse([]string{"--config", path}, io.Discard)
		if err != nil {
			if !errors.Is(err, errUsage) {
				t.Fatalf("the error is not errUsage: %v", err)
			}
			return
		}
		for i, name := range s.names {
			again, err := namesearch.ParseName(name.String())
			if err != nil || again != name || slices.Contains(s.names[:i], name) {
				t.Fatalf("the name %q is read again as %q, or is there twice: %v", name, again, err)
			}
		}
		if len(s.names) == 0 && s.logs.mirror == "" || s.logs.pause < time.Second || s.times.silent < time.Minute || s.folder == "" {
			t.Fatalf("%+v", s)
		}
		for _, log := range s.logs.Only {
			if log.ID != sha256.Sum256(log.PublicKey) {
				t.Fatalf("%+v", log)
			}
			// NewFollower refuses a key that cannot be read. It must not panic.
			_, _ = watch.NewFollower(log, nil, watch.Options{})
		}
	})
}
