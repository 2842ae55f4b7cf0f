// Package logflags reads from the flags of a program which logs it asks, and makes the client with which it asks them.
package logflags

import (
	"context"
	"crypto/sha256"
	"encoding/base64"
	"encoding/pem"
	"errors"
	"flag"
	"fmt"
	"io"
	"os"
	"strings"
	"sync"
	"time"

	"wagtenib/internal/command/version"
	"wagtenib/internal/logclient"
	"wagtenib/internal/watch"
	"wagtenib/internal/watch/alert"
	"wagtenib/internal/watch/loglist"
)

const (
	// DefaultList is the log list of browsers.
	DefaultList = "https://www.gstatic.com/ct/log_list/v3/log_list.json"

	maxKeyFile        = 64 << 10       // bytes
	defaultMergeDelay = 24 * time.Hour // the maximum merge delay of a log of --log (RFC 6962, section 3)
)

// Logs holds the values of the flags.
type Logs struct {
	List    string      // the file or URL of a log list; empty for none
	ListKey []byte      // the public key, in PEM, that must have signed the list; nil for none
	Only    []watch.Log // the logs of --log
	Contact string      // the address that logs see in the User-Agent
}

// Define defines the flags.
func (l *Logs) Define(flags *flag.FlagSet) {
	flags.StringVar(&l.List, "log-list", "",
		"`file or URL` of a log list (version 3). The default is "+DefaultList+", or none if --log is given")
	flags.Func("log-list-key", "`file` with the public key in PEM that must have signed the log list", l.readListKey)
	flags.Func("log", "a log: its `address`, a space, and its public key (a PEM file, or base64). tiled+https://.. is "+
		"a tiled log; a third word is its origin if that is not its address. May be given several times", l.addLog)
	flags.StringVar(&l.Contact, "contact", "", "your mail `address` or URL, which logs see in the User-Agent")
}

func (l *Logs) readListKey(path string) (err error) {
	l.ListKey, err = os.ReadFile(path)
	return err
}

// addLog adds a log from the value of --log: an address, a key, and possibly an origin.
func (l *Logs) addLog(text string) error {
	fields := strings.Fields(text)
	if len(fields) < 2 || len(fields) > 3 {
		return errors.New("log needs an address and a public key, separated by a space (write " +
			"[tiled+]https://HOST/PATH KEY-FILE)")
	}
	address, isTiled := strings.CutPrefix(fields[0], "tiled+")
	if _, err := logclient.New(address, logclient.Options{}); err != nil {
		return err
	}
	key, err := readKey(fields[1])
	if err != nil {
		return err
	}
	address = strings.TrimSuffix(address, "/")
	_, host, _ := strings.Cut(address, "://")
	log := watch.Log{ID: sha256.Sum256(key), Name: host, URL: address, PublicKey: key, MaxMergeDelay: defaultMergeDelay}
	if isTiled {
		log.Origin = host
		if len(fields) == 3 {
			log.Origin = fields[2]
		}
	} else if len(fields) == 3 {
		return errors.New("only a tiled log has an origin (write tiled+ before its address)")
	}
	for _, other := range l.Only {
		if other.ID == log.ID {
			return fmt.Errorf("%s and %s have the same key (write each log once)", other.URL, log.URL)
		}
	}
	l.Only = append(l.Only, log)
	return nil
}

// readKey returns a public key in DER. The text is the key in base64, or the path of a PEM file.
func readKey(text string) ([]byte, error) {
	if der, err := base64.StdEncoding.DecodeString(text); err == nil && len(der) > 32 {
		return der, nil
	}
	file, err := os.Open(text)
	if err != nil {
		return nil, fmt.Errorf("the log's key: %w (write a PEM file, or the key in base64)", err)
	}
	defer file.Close()
	content, err := io.ReadAll(io.LimitReader(file, maxKeyFile))
	if err != nil {
		return nil, err
	}
	block, _ := pem.Decode(content)
	if block == nil || block.Type != "PUBLIC KEY" {
		return nil, fmt.Errorf("%s has no PUBLIC KEY in PEM (openssl pkey -pubin -in FILE shows one)", text)
	}
	return block.Bytes, nil
}

// Client returns the options for requests of a program to logs. The error says that --contact is wrong.
func (l *Logs) Client(program string) (logclient.Options, error) {
	agent, err := logclient.UserAgent(program, version.Number(), l.Contact)
	return logclient.Options{UserAgent: agent}, err
}

// PrintRetries returns a function for logclient.Options.Retrying. It prints the first failed attempt at each host.
func PrintRetries(program string, faults io.Writer) func(address string, fault error) {
	return FirstOfEach(func(address string, fault error) {
		fmt.Fprintf(faults, "%s: %s: %s (it is tried again)\n", program, alert.Safe(address), alert.Safe(fault.Error()))
	})
}

// FirstOfEach returns a function that calls report only for the first failed attempt at each host. Several goroutines
// may call it.
func FirstOfEach(report func(address string, fault error)) func(address string, fault error) {
	var mutex sync.Mutex
	seen := map[string]bool{}
	return func(address string, fault error) {
		_, host, _ := strings.Cut(address, "://")
		host, _, _ = strings.Cut(host, "/")
		mutex.Lock()
		defer mutex.Unlock()
		if !seen[host] {
			seen[host] = true
			report(address, fault)
		}
	}
}

// All returns the logs of --log and all logs of the list, in any state: a certificate can have a promise of a retired
// log. The error says why the list cannot be read.
func (l *Logs) All(ctx context.Context, client logclient.Options) ([]watch.Log, error) {
	logs, place := l.Only, l.List
	if place == "" {
		if len(logs) > 0 {
			return logs, nil
		}
		place = DefaultList
	}
	list, err := loglist.Source{Place: place, Key: l.ListKey, Client: client}.Read(ctx)
	if err != nil {
		return nil, fmt.Errorf("the log list cannot be read: %w", err)
	}
	for _, log := range list.Logs {
		logs = append(logs, log.Log)
	}
	return logs, nil
}
