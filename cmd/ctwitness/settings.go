package main

import (
	"crypto/ed25519"
	"errors"
	"fmt"
	"io"
	"os"
	"strings"
	"time"

	"golang.org/x/mod/sumdb/note"

	"wagtenib/internal/blob"
	"wagtenib/internal/command/privatefile"
	"wagtenib/internal/command/settingsfile"
	"wagtenib/internal/witness"
)

// fileRules are the rules of the settings file.
var fileRules = settingsfile.Rules{Only: []string{"config", "create", "verifier-key"},
	Several: []string{"log", "accepted-by"}}

// settings are the values of the command line and of the settings file.
type settings struct {
	arguments             []string
	name, key, state      string
	listen, operator      string
	openWithin, endWithin time.Duration
	logs                  []logSetting
	accepted              map[string]string
	create                []string
	verifierKey           bool
	allowPlaintext        bool
}

// logSetting is a log's origin and the keys that sign its notes.
type logSetting struct {
	origin string
	keys   []note.Verifier
}

// errUsage is the error of a wrong command line or settings file.
var errUsage = errors.New("ctwitness")

// maxKey is the maximum number of bytes that are read from a key file. keySecret says what that file has.
const (
	maxKey    = 64 << 10
	keySecret = "a witness's key"
)

// parse reads the command line and the settings file that it names. If both have a setting, the command line counts.
// The logs of both are used.
func parse(arguments []string, help io.Writer) (*settings, error) {
	s := &settings{arguments: arguments, accepted: map[string]string{}}
	flags := settingsfile.Flags("ctwitness",
		"ctwitness is a witness of Certificate Transparency logs. It cosigns a head of a log only if the proved code "+
			"in it decides that the head follows the last one.\nEach setting except --create and --verifier-key is a "+
			"flag, or a line 'name value' in the file that --config names.", help)
	flags.String("config", "", "`file` with a line 'name value' for each of these settings. A comment begins with #. "+
		"The logs are read again at SIGHUP")
	flags.StringVar(&s.name, "name", "", "the witness's `name`, for example witness.example")
	flags.StringVar(&s.key, "key", "",
		"`file` with its Ed25519 private key in PEM (openssl genpkey -algorithm ed25519). Only its owner may have "+
			"the permission to read it")
	flags.StringVar(&s.state, "state", "",
		"`address` under which the state of each log is kept: file:PATH, etcd://HOST:PORT/PREFIX, "+
			"postgres://HOST/DATABASE?log=NAME")
	flags.BoolVar(&s.allowPlaintext, "allow-plaintext", false,
		"call a state on another machine without TLS. Everyone on the way can then read and change the state and the "+
			"password")
	flags.StringVar(&s.listen, "listen", "127.0.0.1:8640", "`address` for logs")
	flags.StringVar(&s.operator, "operator-listen", "127.0.0.1:8641",
		"`address` for /metrics and /healthz. If it is empty, they are not served")
	flags.Func("log", "a log's `origin` and its keys, separated by spaces. A key is a PEM file (P-256 or Ed25519) or "+
		"an Ed25519 verifier key. One setting for each log", s.addLog)
	flags.Func("accepted-by", "a log's `origin`, a space, and the file with the checkpoint that a monitor accepted "+
		"last (a file of ctwatch run --accepted-folder). Only this head, of which the monitor read all entries, is "+
		"cosigned. At most one setting for each log", s.addAccepted)
	flags.DurationVar(&s.openWithin, "open-timeout", 30*time.Second, "time within which the states must open")
	flags.DurationVar(&s.endWithin, "shutdown-timeout", 30*time.Second,
		"time after SIGTERM within which requests are still answered")
	flags.Func("create", "create the state of the log with this `origin`, of which this witness never cosigned a "+
		"head, and exit. May be given several times", func(origin string) error {
		s.create = append(s.create, origin)
		return nil
	})
	flags.BoolVar(&s.verifierKey, "verifier-key", false,
		"print the key by which logs and clients know this witness, and exit")
	if err := fileRules.ParseAndValidate(flags, arguments, s.validate, errUsage); err != nil {
		return nil, err
	}
	return s, nil
}

// validate returns an error if a setting is missing or wrong.
func (s *settings) validate() error {
	for _, required := range []struct{ name, value string }{{"name", s.name}, {"key", s.key}} {
		if required.value == "" {
			return fmt.Errorf("--%s is missing", required.name)
		}
	}
	if s.state == "" && !s.verifierKey {
		return errors.New("--state is missing")
	}
	if err := privatefile.CheckPath(s.key, keySecret); errors.Is(err, privatefile.ErrShared) {
		return fmt.Errorf("--key: %w", err)
	}
	if err := blob.CheckTLS(s.state); err != nil && !s.allowPlaintext {
		return fmt.Errorf("--state: %w", err)
	}
	for origin := range s.accepted {
		if _, found := s.log(origin); !found {
			return fmt.Errorf("accepted-by %s: there is no such log", origin)
		}
	}
	if err := settingsfile.Positive("open-timeout", s.openWithin); err != nil {
		return err
	}
	return settingsfile.Positive("shutdown-timeout", s.endWithin)
}

// addAccepted reads an --accepted-by setting: a log's origin and the file of the checkpoint that a monitor accepted.
func (s *settings) addAccepted(text string) error {
	origin, path, _ := strings.Cut(strings.TrimSpace(text), " ")
	if path = strings.TrimSpace(path); path == "" {
		return errors.New("accepted-by needs an origin, a space and a file")
	}
	if s.accepted[origin] != "" {
		return fmt.Errorf("%s is given twice", origin)
	}
	s.accepted[origin] = path
	return nil
}

// addLog reads a --log setting: a log's origin and its keys.
func (s *settings) addLog(text string) error {
	fields := strings.Fields(text)
	if len(fields) < 2 {
		return errors.New("log needs an origin and at least one key, separated by spaces")
	}
	if _, twice := s.log(fields[0]); twice {
		return fmt.Errorf("%s is given twice", fields[0])
	}
	log, seen := logSetting{origin: fields[0]}, map[uint32]bool{}
	for _, field := range fields[1:] {
		written := field
		if !strings.Contains(field, "+") {
			content, err := os.ReadFile(field)
			if err != nil {
				return err
			}
			written = string(content)
		}
		key, err := witness.LogKey(log.origin, written)
		if err != nil {
			return fmt.Errorf("%s: %w", field, err)
		}
		if seen[key.KeyHash()] {
			return fmt.Errorf("%s: two keys have the same key hash", log.origin)
		}
		seen[key.KeyHash()] = true
		log.keys = append(log.keys, key)
	}
	s.logs = append(s.logs, log)
	return nil
}

func (s *settings) log(origin string) (logSetting, bool) {
	for _, log := range s.logs {
		if log.origin == origin {
			return log, true
		}
	}
	return logSetting{}, false
}

// readKey reads the witness's key from a file that only its owner may read.
func readKey(path string) (ed25519.PrivateKey, error) {
	content, err := privatefile.Read(path, keySecret, maxKey)
	if err != nil {
		return nil, fmt.Errorf("%w: %w", witness.ErrKey, err)
	}
	return witness.ReadKey(content)
}
