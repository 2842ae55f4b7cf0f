package service_test

import (
	"bytes"
	"crypto/sha256"
	"encoding/hex"
	"errors"
	"os"
	"strings"
	"testing"
	"time"

	"wagtenib/internal/blob"
	"wagtenib/internal/log"
	"wagtenib/internal/log/node"
)

// damages has ways to damage a file.
var damages = map[string]func(path string) error{
	"changed": func(path string) error {
		content, err := os.ReadFile(path)
		if err != nil {
			return err
		}
		// In a data tile, this byte is in the part of the first entry that the tree covers.
		content[min(20, len(content)-1)] ^= 1
		return os.WriteFile(path, content, 0o644)
	},
	"cut":     func(path string) error { return os.Truncate(path, 7) },
	"emptied": func(path string) error { return os.Truncate(path, 0) },
	"removed": os.Remove,
}

// TestDamagedTilesAreNotServed checks that a full tile of the published tree that is missing or differs from the tree
// is a fault of the store until it is restored. It counts as damaged. Other tiles can be read meanwhile.
func TestDamagedTilesAreNotServed(t *testing.T) {
	t.Parallel()
	p, got, ctx := newPlace(t), &answers{}, limited(t)
	l := started(t, p.config())
	got.submit(t, l, 0, 600)
	full := []string{"tile/data/000", "tile/0/000", "tile/data/001", "tile/0/001"}
	for i, name := range full {
		for how, damage := range damages {
			content, err := os.ReadFile(p.object(name))
			must(t, err)
			must(t, damage(p.object(name)))
			_, err = l.Object(ctx, name, blob.MaxObject)
			wants(t, err, log.ErrStore, node.ErrDamaged)
			if f := l.Metrics(); f.Damaged == 0 || i == 0 && !strings.Contains(f.Damage, name) {
				t.Errorf("%s, %s: %d tiles are damaged, %q", name, how, f.Damaged, f.Damage)
			}
			if _, err := l.Object(ctx, full[(i+2)%len(full)], blob.MaxObject); err != nil {
				t.Errorf("%s is %s, and another tile cannot be read: %v", name, how, err)
			}
			must(t, os.WriteFile(p.object(name), content, 0o644))
			if served, err := l.Object(ctx, name, blob.MaxObject); err != nil || !bytes.Equal(served, content) {
				t.Errorf("%s after it was %s: %v", name, how, err)
			}
		}
	}
	for _, name := range []string{"tile/data/002", "tile/0/007", "tile/2/000", "tile/data/000.p/7"} {
		if _, err := l.Object(ctx, name, blob.MaxObject); !errors.Is(err, blob.ErrAbsent) || errors.Is(err,
			log.ErrStore) {
			t.Errorf("%s, which the tree does not have: %v", name, err)
		}
	}
	for _, name := range []string{"register", "heads/x", "staging/x", "../key.pem"} {
		_, err := l.Object(ctx, name, blob.MaxObject)
		wants(t, err, blob.ErrName)
	}
	must(t, os.Remove(p.object("tile/data/002.p/88")))
	_, err := l.Object(ctx, "tile/data/002.p/88", blob.MaxObject)
	wants(t, err, log.ErrStore)
}

// TestRefusesDuplicateInDamagedTile checks that a duplicate whose data tile is damaged is refused, and that everything
// else goes on. The janitor notices when the tile is restored.
func TestRefusesDuplicateInDamagedTile(t *testing.T) {
	t.Parallel()
	p, got := newPlace(t), &answers{}
	config := p.config()
	config.Keep.Interval = 5 * time.Millisecond
	l := started(t, config)
	got.submit(t, l, 0, 300)
	const name = "tile/data/000"
	content, err := os.ReadFile(p.object(name))
	must(t, err)
	must(t, os.Remove(p.object(name)))
	place, err := l.HeadOf(limited(t), 1)
	must(t, err)
	if place.TreeSize != 300 {
		t.Errorf("%+v", place)
	}
	refused := 0
	for n := range 300 {
		if _, err := l.Submit(limited(t), entryOf(n)); errors.Is(err, log.ErrStore) {
			refused++
		} else if err != nil {
			t.Error(err)
		}
	}
	if refused != 256 {
		t.Errorf("%d of 256 are refused", refused)
	}
	got.submit(t, l, 300, 310)
	if f := l.Metrics(); f.Fault != "" || f.Damaged != 1 || !strings.Contains(f.Damage, name+" is missing") {
		t.Errorf("%+v", f)
	}
	must(t, os.WriteFile(p.object(name), content, 0o644))
	eventually(t, "the tile counts as right", func() bool { return l.Metrics().Damaged == 0 })
	got.submit(t, l, 0, 256)
	if leaves := p.checkLog(got); leaves != 310 {
		t.Errorf("%d entries", leaves)
	}
}

// issuerOf returns the name and the content of an issuer of an entry.
func issuerOf(number int) (name string, content []byte) {
	content = entryOf(number).Issuers[0]
	fingerprint := sha256.Sum256(content)
	return "issuer/" + hex.EncodeToString(fingerprint[:]), content
}

// TestRepairsIssuers checks that a damaged issuer is found. The next submission with it stores it again, or the node
// does by itself if it knows the issuer's bytes.
func TestRepairsIssuers(t *testing.T) {
	t.Parallel()
	p, got := newPlace(t), &answers{}
	l := started(t, p.config())
	got.submit(t, l, 0, 300)
	ends(t, l)
	number := 1000
	for how, damage := range damages {
		name, content := issuerOf(number)
		must(t, damage(p.object(name)))
		config := p.config()
		config.Keep.Interval, config.Keep.Reread = 5*time.Millisecond, 5*time.Millisecond
		config.Keep.Tiles = time.Millisecond
		l := started(t, config)
		got.submit(t, l, number+1, number+2)
		eventually(t, how+": the damage is found", func() bool {
			f := l.Metrics()
			return f.DamagedIssuers == 1 && strings.Contains(f.Damage, name)
		})
		got.submit(t, l, number, number+1)
		eventually(t, how+": the issuer counts as right", func() bool { return l.Metrics().DamagedIssuers == 0 })
		if f := l.Metrics(); f.Repaired != 1 || f.LastRepaired != name {
			t.Errorf("%s: %d objects are repaired, the last is %s", how, f.Repaired, f.LastRepaired)
		}
		must(t, damage(p.object(name)))
		eventually(t, how+": the issuer is stored again without a submission", func() bool {
			stored, err := os.ReadFile(p.object(name))
			return err == nil && bytes.Equal(stored, content)
		})
		ends(t, l)
		number += 5
	}
	p.checkLog(got)
}
