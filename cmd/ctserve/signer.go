package main

import (
	"context"
	"errors"
	"flag"
	"fmt"
	"io"
	"os"
	"os/user"
	"strconv"
	"strings"
	"time"

	"wagtenib/internal/blob"
	"wagtenib/internal/command/eventlog"
	"wagtenib/internal/command/settingsfile"
	"wagtenib/internal/log/signer"
)

const (
	// guardStateKey is the environment variable with the address of the guard's state. The address may have a password,
	// which other users could see among a process's arguments.
	guardStateKey = "CTSERVE_GUARD_STATE"
	// signWithin is the time within which a signer must answer a request.
	signWithin = 30 * time.Second
)

// askSigner starts the log's signer, which is a process of its own, or connects to the one at a socket. A signer that
// is started again does not create the guard's state, because the log may have grown since.
func askSigner(ctx context.Context, n node) (*signer.Client, error) {
	open := func(ctx context.Context) (*signer.Peer, error) { return signer.Dial(ctx, n.signerSocket) }
	if n.signerSocket == "" {
		self, err := os.Executable()
		if err != nil {
			return nil, fmt.Errorf("ctserve: %w", err)
		}
		arguments := []string{self, "signer", "--signing-key", n.signingKey,
			"--guard=" + strconv.FormatBool(n.isGuarded()), "--allow-plaintext=" + strconv.FormatBool(n.allowPlaintext)}
		if n.openWithin > 0 {
			// The signer has less time, so that it reports the reason before the node gives up.
			arguments = append(arguments, "--open-timeout", (n.openWithin * 4 / 5).String())
		}
		create := n.create
		open = func(context.Context) (*signer.Peer, error) {
			these := append(append([]string{}, arguments...), "--create="+strconv.FormatBool(create))
			create = false
			return signer.Start(these, guardStateKey+"="+n.guardState)
		}
	}
	return signer.NewClient(ctx, open, signWithin)
}

// signerSettings are the settings of the command signer.
type signerSettings struct {
	key, state     string
	guard, create  bool
	openWithin     time.Duration
	socket         signer.Socket
	allowPlaintext bool
}

// flags defines the settings.
func (s *signerSettings) flags(flags *flag.FlagSet) {
	flags.StringVar(&s.key, "signing-key", "",
		"`file` with the log's P-256 key in PEM, which only its owner may have the permission to read, or a PKCS#11 "+
			"URI: pkcs11:token=LABEL;object=LABEL?module-path=PATH&pin-source=file:PATH")
	flags.BoolVar(&s.guard, "guard", true,
		"have the guard, which is proved code, approve what is signed. Without it, the signer signs everything that "+
			"it is asked to sign")
	flags.StringVar(&s.state, "guard-state", os.Getenv(guardStateKey),
		"`address` of the guard's state: file:PATH, etcd://HOST:PORT/PREFIX, postgres://HOST/DATABASE?log=NAME")
	flags.BoolVar(&s.create, "create", false, "create the guard's state if there is none")
	flags.DurationVar(&s.openWithin, "open-timeout", signWithin, "time within which the guard's state must open")
	flags.StringVar(&s.socket.Path, "listen", "",
		"`path` of a socket for the nodes of this machine. Without it, requests come over standard input")
	flags.Func("allow-users",
		"comma-separated `users`, by name or number, whose processes may use the socket. "+
			"Without it, only the processes of the signer's own user may",
		func(text string) (err error) {
			s.socket.Users, err = usersOf(text)
			return err
		})
	plaintextFlag(flags, &s.allowPlaintext)
}

// validate returns an error if a setting is missing or wrong.
func (s *signerSettings) validate() error {
	switch {
	case s.key == "":
		return errors.New("--signing-key is missing (see --help)")
	case s.socket.Users != nil && s.socket.Path == "":
		return errors.New("--allow-users needs --listen")
	}
	if err := checkKeyFiles(named{"signing-key", s.key}); err != nil || s.allowPlaintext {
		return err
	}
	return checkTLS(named{"guard-state", s.state})
}

// unmappedUser is the user id that the kernel reports for every user that this process's user namespace does not have
// (user_namespaces(7)). It is also the id of nobody.
const unmappedUser = 65534

// usersOf returns the ids of users, which are given by their names or ids.
func usersOf(text string) (ids []uint32, err error) {
	for _, name := range strings.Split(text, ",") {
		name = strings.TrimSpace(name)
		id := name
		if found, err := user.Lookup(name); err == nil {
			id = found.Uid
		}
		number, err := strconv.ParseUint(id, 10, 32)
		if err != nil {
			return nil, fmt.Errorf("there is no user %q (write names or ids of users of this machine)", name)
		}
		if number == unmappedUser {
			return nil, fmt.Errorf("%s is the user of every process that belongs to nobody (name a user of the log)", name)
		}
		ids = append(ids, uint32(number))
	}
	return ids, nil
}

// runSigner answers the requests of a node on standard input until they end, or those of all nodes that connect to a
// socket. It returns the exit status: 0 at the end of the requests, 1 after a fault, 2 if the arguments are wrong.
func runSigner(arguments []string, stdin io.Reader, stdout, stderr io.Writer) int {
	flags := commandFlags("signer",
		"ctserve signer has a log's key, and signs what the guard approves. Nodes of ctserve ask it over two pipes "+
			"or a socket.", stderr)
	s := &signerSettings{}
	s.flags(flags)
	err := parseFlags(flags, arguments, 0)
	if err == nil {
		if err = s.validate(); err != nil {
			err = fmt.Errorf("ctserve signer: %w", err)
		}
	}
	if status, ends := settingsfile.Ends(err, stderr); ends {
		return status
	}
	lines := eventlog.NewLines(stderr)
	s.socket.Refused = func(caller signer.Caller, count int) {
		lines.Warn("refused-caller", "uid", caller.UID, "pid", caller.PID, "refused", count)
	}
	if err := s.serve(stdin, stdout); err != nil {
		fmt.Fprintln(stderr, err)
		return 1
	}
	return 0
}

// serve opens the key and the guard's state, and answers requests.
func (s *signerSettings) serve(stdin io.Reader, stdout io.Writer) error {
	ctx := context.Background()
	key, err := signer.OpenKey(s.key)
	if err != nil {
		return err
	}
	var signs signer.Signer = key
	if s.guard {
		state, err := blob.LockAt(ctx, s.state)
		if err != nil {
			return err
		}
		defer state.Close()
		opening, cancel := context.WithTimeout(ctx, s.openWithin)
		guarded, err := signer.NewGuarded(opening, key, signer.Guard{State: state, Create: s.create})
		late := opening.Err()
		cancel()
		if err != nil && late != nil {
			// Only the kind is reported, because an address may have a password.
			kind, _, _ := strings.Cut(s.state, ":")
			return fmt.Errorf("the guard's state (guard-state, of %s) cannot be read: %w", kind, err)
		}
		if errors.Is(err, signer.ErrState) && s.socket.Path == "" {
			if failed := signer.ServeState(err, stdin, stdout); failed != nil {
				return failed
			}
		}
		if err != nil {
			return err
		}
		signs = guarded
	}
	if s.socket.Path != "" {
		return signer.Listen(ctx, signs, s.socket)
	}
	return signer.Serve(ctx, signs, stdin, stdout)
}
