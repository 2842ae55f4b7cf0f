package service_test

import (
	"os"
	"strings"
	"testing"

	"wagtenib/internal/log/node"
	"wagtenib/internal/log/service"
)

// TestRefusesAnotherLogsSettings checks that a start with another log's origin or key is refused, and changes nothing.
func TestRefusesAnotherLogsSettings(t *testing.T) {
	t.Parallel()
	p, got := newPlace(t), &answers{}
	l := started(t, p.config())
	got.submit(t, l, 0, 5)
	ends(t, l)
	for what, change := range map[string]func(*service.Config){
		"has the origin \"log.example/tried\"": func(c *service.Config) { c.Origin = "log.example/another" },
		"another key than the settings' signed": func(c *service.Config) {
			c.Signer, c.Machine.Files.LatestHead = newPlace(t).key, ""
		},
	} {
		config := p.config()
		change(&config)
		_, err := service.Open(limited(t), config)
		wants(t, err, node.ErrConfig)
		if !strings.Contains(err.Error(), what) {
			t.Errorf("%v does not say %s", err, what)
		}
	}
	if leaves := p.checkLog(got); leaves != 5 {
		t.Errorf("%d entries", leaves)
	}
	l = started(t, p.config())
	got.submit(t, l, 0, 6)
}

// TestRefusesWrongConfigurations checks that a configuration that lacks something, or has an impossible value, is
// refused with an error that names it.
func TestRefusesWrongConfigurations(t *testing.T) {
	t.Parallel()
	p := newPlace(t)
	for what, change := range map[string]func(*service.Config){
		"a store or the signer is missing": func(c *service.Config) { c.Stores.Lock = nil },
		"the origin":                       func(c *service.Config) { c.Origin = "log example" },
		"lower --max-batch":                func(c *service.Config) { c.Pace.MaxBatch = service.MaxBatch + 1 },
		"a number of Limits":               func(c *service.Config) { c.Pace.MaxQueue = 0 },
	} {
		config := p.config()
		change(&config)
		_, err := service.Open(limited(t), config)
		wants(t, err, node.ErrConfig)
		if !strings.Contains(err.Error(), what) {
			t.Errorf("%v does not say %s", err, what)
		}
	}
	if _, err := os.Stat(p.object("heads")); err == nil {
		t.Error("a refused configuration created a log")
	}
}
