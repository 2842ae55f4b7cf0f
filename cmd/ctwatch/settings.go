package main

import (
	"encoding/hex"
	"errors"
	"flag"
	"fmt"
	"io"
	"os"
	"slices"
	"strconv"
	"strings"
	"time"

	"wagtenib/internal/command/settingsfile"
	"wagtenib/internal/watch"
	"wagtenib/internal/watch/logflags"
	"wagtenib/internal/watch/namesearch"
	"wagtenib/internal/watch/watchstore"
)

// byProgram says how alerts get to a mail server that needs a login.
const byProgram = "write sendmail with the path of a program that logs in to the mail server, such as msmtp, or use " +
	"webhook or command"

// fileRules holds the rules for the config file, and what replaces the settings of earlier builds.
var fileRules = settingsfile.Rules{
	Only: []string{"config", "once"},
	Several: []string{"name", "names", "certspotter-watchlist", "log", "mail", "webhook", "command", "expect-key",
		"expect-issuer", "page-host"},
	Removed: map[string]string{"mail-user": byProgram, "mail-password-file": byProgram, "mail-roots": byProgram,
		"quiet": "redirect standard output to /dev/null, or write StandardOutput=null into the unit",
		"search-bytes": "leave it out, or have a program of command search each certificate: the line . of a file of " +
			"certspotter-watchlist covers them all",
		"keep-all": "write keep FOLDER for a mirror of each tiled log, which another run can search from its start"},
}

// settings holds the values of the command line and of the config file.
type settings struct {
	names    []namesearch.Name
	folder   string
	logs     logSettings
	outputs  outputSettings
	expected watchstore.Expected
	unread   string
	times    timeSettings
	serve    serveSettings
}

// timeSettings holds the times after which silence, and before which a missing renewal, causes an alert.
type timeSettings struct {
	silent   time.Duration
	renewals time.Duration // 0 if renewals are not checked
}

// logSettings holds the settings that say which logs are watched, and how.
type logSettings struct {
	logflags.Logs
	fromStart bool
	pause     time.Duration
	once      bool
	mirror    string
	accepted  string
	policy    policyFlags
}

// serveSettings holds the address of the local page, the names of its host, and the path of the config file.
type serveSettings struct {
	listen string
	hosts  []string // in lower case
	config string   // empty if all settings are flags
}

// parse reads the command line, and the config file that it names. If both have a setting, the command line counts. If
// a setting may be given several times, the values of both count.
func parse(arguments []string, out io.Writer) (*settings, error) {
	s := &settings{}
	flags := flagsOf("run")
	s.define(flags)
	err := fileRules.ParseAndValidate(flags, arguments, s.validate, errUsage)
	if errors.Is(err, flag.ErrHelp) {
		fmt.Fprint(out, "ctwatch run follows logs, and sends an alert for each certificate for the watched names.\n"+
			"Each setting except --config and --once is a flag, or a line 'name value' in the file that --config "+
			"names.\n\n")
		flags.SetOutput(out)
		flags.PrintDefaults()
	}
	if err != nil {
		return nil, err
	}
	return s, nil
}

func (s *settings) define(flags *flag.FlagSet) {
	flags.StringVar(&s.serve.config, "config", "", "`file` with a line 'name value' for each of these settings. A "+
		"comment begins with #. SIGHUP has it read again")
	flags.Func("name", "watched `name`: example.org covers all names below it, =example.org only that name. May be "+
		"given several times", s.addName)
	flags.Func("names", "`file` with watched names, one a line (ctwatch names FILE checks it)",
		s.addNames(namesearch.ParseList))
	flags.Func("certspotter-watchlist", "`file` with watched names, as certspotter has it",
		s.addNames(namesearch.ParseCertspotterList))
	flags.StringVar(&s.folder, "folder", watchstore.DefaultFolder(), "`folder` of the store")
	s.logs.Define(flags)
	flags.BoolVar(&s.logs.fromStart, "from-start", false,
		"read a log that was never read from its first entry on, and not from its end")
	flags.DurationVar(&s.logs.pause, "pause", time.Minute, "time between two readings of a log's tree head")
	flags.BoolVar(&s.logs.once, "once", false,
		"read each log up to its newest head once, send what was found, and end: for cron")
	flags.StringVar(&s.logs.mirror, "keep", "", "`folder` in which a mirror of each tiled log is kept, from its first entry on, in a folder of the log's ID. With "+
		"it, --name is not needed")
	flags.StringVar(&s.logs.accepted, "accepted-folder", "",
		"`folder` that gets the head of each tiled log that was accepted last, for a witness (ctwitness --accepted-by)")
	s.logs.policy.define(flags)
	s.outputs.define(flags)
	flags.Func("expect-key", "SHA-256 `hash` of a public key (SubjectPublicKeyInfo) whose certificates cause no "+
		"alert. May be given several times", s.addKey)
	flags.Func("expect-issuer", "`organization`, common name or whole name of a CA whose certificates cause no alert. "+
		"May be given several times", appendTo(&s.expected.Issuers))
	flags.StringVar(&s.unread, "unread", "all",
		"certificates whose names cannot be read that cause an alert: all, `mentioned` (their bytes have a watched "+
			"name) or none")
	flags.DurationVar(&s.times.silent, "silent-after", 24*time.Hour,
		"time after which a log or a log list that cannot be read causes an alert; at least 1m")
	flags.Func("renewals", "`time`, such as 7d or 36h, before the end of a certificate for an exactly watched name "+
		"(=example.org, or an address). If no newer certificate was logged then, an alert says so", s.readRenewals)
	flags.StringVar(&s.serve.listen, "listen", "127.0.0.1:8650",
		"`address` of the local page, /metrics and /healthz. If it is empty, they are not served")
	flags.Func("page-host", "`name` in addresses of the page, such as that of a proxy. Requests for other names than "+
		"these and localhost are refused. May be given several times", s.addHost)
}

// appendTo returns a function that appends the value of a flag to a list.
func appendTo(list *[]string) func(string) error {
	return func(value string) error {
		value = strings.TrimSpace(value)
		if value == "" {
			return errors.New("it is empty (write a value, or leave the setting out)")
		}
		*list = append(*list, value)
		return nil
	}
}

// validate returns an error if a setting is missing or wrong. It also sets the default log list, and that no alert is
// caused if no name is watched.
func (s *settings) validate() error {
	switch {
	case len(s.names) == 0 && s.logs.mirror == "":
		return errors.New("there is no watched name (write --name example.org, or --names FILE)")
	case s.logs.pause < time.Second:
		return errors.New("--pause must be at least 1s, so that logs are not asked too often")
	case s.times.silent < time.Minute:
		return errors.New("--silent-after must be at least 1m")
	case s.times.renewals > 0 && !slices.ContainsFunc(s.names, namesearch.Name.IsExact):
		return errors.New("--renewals needs a name that is watched exactly (write --name =www.example.org too)")
	case s.folder == "":
		return errors.New("--folder is empty (write the folder of the store)")
	case s.logs.mirror != "" && s.logs.List == "" && len(s.logs.Only) > 0 &&
		!slices.ContainsFunc(s.logs.Only, watch.Log.IsTiled):
		return errors.New("--keep mirrors tiled logs, and no log of --log is one (write tiled+https://HOST/PATH KEY-FILE)")
	}
	if !slices.Contains([]watchstore.Unread{watchstore.UnreadAll, watchstore.UnreadMentioned, watchstore.UnreadNone},
		watchstore.Unread(s.unread)) {
		return fmt.Errorf("--unread %q is none of all, mentioned and none", s.unread)
	}
	if len(s.names) == 0 {
		// A mirror without names has nobody who owns a certificate.
		s.unread = string(watchstore.UnreadNone)
	}
	if s.logs.List == "" && len(s.logs.Only) == 0 {
		s.logs.List = logflags.DefaultList
	}
	if s.logs.ListKey != nil && s.logs.List == "" {
		return errors.New("--log-list-key needs --log-list")
	}
	return nil
}

// addHost adds a name of the page's host.
func (s *settings) addHost(text string) error {
	name := strings.ToLower(strings.TrimSuffix(strings.TrimSpace(text), "."))
	if name == "" || strings.ContainsAny(name, ":/ *") {
		return fmt.Errorf("%.100q is no host name (write it without a scheme, a port and a path: watch.example.org)", text)
	}
	s.serve.hosts = append(s.serve.hosts, name)
	return nil
}

// readRenewals reads a duration, or a number of days such as 7d.
func (s *settings) readRenewals(text string) (err error) {
	const day, maxDays = 24 * time.Hour, 365
	if days, isDays := strings.CutSuffix(text, "d"); isDays {
		number, fault := strconv.Atoi(days)
		s.times.renewals, err = day*time.Duration(min(number, maxDays+1)), fault
	} else {
		s.times.renewals, err = time.ParseDuration(text)
	}
	if err != nil || s.times.renewals < time.Hour || s.times.renewals > maxDays*day {
		return errors.New("it is no time from 1h to 365d (write, for example, 7d)")
	}
	return nil
}

func (s *settings) addName(text string) error {
	name, err := namesearch.ParseName(text)
	if err != nil {
		return err
	}
	s.add([]namesearch.Name{name})
	return nil
}

// add adds names that are not there yet.
func (s *settings) add(names []namesearch.Name) {
	for _, name := range names {
		if !slices.Contains(s.names, name) {
			s.names = append(s.names, name)
		}
	}
}

func (s *settings) addNames(parse func(io.Reader) ([]namesearch.Name, error)) func(string) error {
	return func(path string) error {
		names, err := readNames(path, parse)
		if err != nil {
			return err
		}
		s.add(names)
		return nil
	}
}

// readNames reads a watch list from a file.
func readNames(path string, parse func(io.Reader) ([]namesearch.Name, error)) ([]namesearch.Name, error) {
	file, err := os.Open(path)
	if err != nil {
		return nil, err
	}
	defer file.Close()
	names, err := parse(file)
	if err != nil {
		return nil, fmt.Errorf("%s: %w", path, err)
	}
	return names, nil
}

func (s *settings) addKey(text string) error {
	digits := strings.ToLower(strings.ReplaceAll(strings.TrimSpace(text), ":", ""))
	if digest, err := hex.DecodeString(digits); err != nil || len(digest) != 32 {
		return fmt.Errorf("%.100q is no SHA-256 hash (write 64 hexadecimal digits, as an alert has them)", text)
	}
	s.expected.Keys = append(s.expected.Keys, digits)
	return nil
}
