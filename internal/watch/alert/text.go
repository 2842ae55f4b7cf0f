package alert

import (
	"fmt"
	"strconv"
	"strings"
	"time"
)

// maxLineNames is the maximum number of host names in a line of the terminal.
const maxLineNames = 5

// Line returns an alert as one line, without a line end.
func Line(a Alert) string {
	again := ""
	if a.Again {
		again = " (again)"
	}
	switch a.Kind {
	case Found:
		return fmt.Sprintf("FOUND%s %s: %s", again, first(watched(a.Certificate.Matches)), Describe(a.Certificate))
	case Unread:
		return fmt.Sprintf("UNREAD%s: the names of a certificate cannot be read (%s): %s", again,
			a.Certificate.Fault, Describe(a.Certificate))
	case Unrenewed, Renewed:
		return fmt.Sprintf("%s%s %s: %s", strings.ToUpper(string(a.Kind)), again, a.Text, Describe(a.Certificate))
	case Evidence:
		return fmt.Sprintf("LOG%s %s: %s: %s; %s", again, a.Log.Name, a.Log.Verdict, a.Log.Text, a.Log.Kept)
	case Unproved:
		return fmt.Sprintf("UNPROVED%s %s: %s; %s", again, a.Log.Name, a.Log.Text, a.Log.Kept)
	}
	return fmt.Sprintf("SILENT%s %s: %s", again, a.Log.Name, a.Log.Text)
}

// watched returns the watched names of matches.
func watched(matches []Match) []string {
	var names []string
	for _, match := range matches {
		names = append(names, match.Name)
	}
	return names
}

// first returns the first names of a list, at most MaxNames, and the number of the others. A dishonest log can have a
// certificate with every watched name.
func first(names []string) string {
	shown := names[:min(len(names), MaxNames)]
	text := strings.Join(shown, ", ")
	if more := len(names) - len(shown); more > 0 {
		text += fmt.Sprintf(" and %d more", more)
	}
	return text
}

// hosts returns the host names to show: those that match or, if none does, those of the certificate.
func hosts(c *Certificate) []string {
	var found []string
	seen := map[string]bool{}
	for _, match := range c.Matches {
		for _, host := range match.Hosts {
			if !seen[host] {
				seen[host] = true
				found = append(found, host)
			}
		}
	}
	if len(found) == 0 {
		return c.Names
	}
	return found
}

// Describe returns a certificate as one line, without a line end.
func Describe(c *Certificate) string {
	names := hosts(c)
	shown := strings.Join(names[:min(len(names), maxLineNames)], ", ")
	if shown == "" {
		shown = "no name"
	}
	parts := []string{fmt.Sprintf("%s (%s)", shown, Count(int64(c.NameCount), "name"))}
	parts = append(parts, "issued by "+orUnread(c.Fields.Issuer), "valid "+validity(c.Fields))
	parts = append(parts, "serial number "+orUnread(c.Fields.SerialNumber))
	if matches := unprovedMatches(c); matches != "" {
		parts = append(parts, matches)
	}
	for _, sighting := range c.Sightings[:min(len(c.Sightings), 1)] {
		parts = append(parts, fmt.Sprintf("%s %d of %s", sighting.Type, sighting.Index, sighting.Log))
	}
	return strings.Join(append(parts, c.Kept), "; ")
}

// Count returns a number with a noun, which gets an s unless the number is 1.
func Count(number int64, noun string) string {
	if number == 1 {
		return "1 " + noun
	}
	return fmt.Sprintf("%d %ss", number, noun)
}

// unprovedMatches returns a text with the watched names whose matches the proved library did not decide.
func unprovedMatches(c *Certificate) string {
	var names []string
	for _, match := range c.Matches {
		if !match.Proved {
			names = append(names, match.Name+" by "+match.Place)
		}
	}
	if len(names) == 0 {
		return ""
	}
	return "not decided by the proved library: " + first(names)
}

func validity(f Fields) string { return day(f.NotBefore) + " to " + day(f.NotAfter) }

func day(at time.Time) string {
	if at.IsZero() {
		return "(cannot be read)"
	}
	return at.UTC().Format(time.DateOnly)
}

func orUnread(text string) string {
	if text == "" {
		return "(cannot be read)"
	}
	return text
}

// Paragraphs returns an alert as lines for a mail.
func Paragraphs(a Alert) string {
	var text strings.Builder
	row := func(name, value string) {
		if value != "" {
			fmt.Fprintf(&text, "%-22s %s\n", name+":", value)
		}
	}
	if a.Again {
		row("Again", "this alert may have been sent before")
	}
	if a.Log != nil {
		row("Log", a.Log.Name)
		row("Address", a.Log.URL)
		row("What happened", a.Log.Verdict)
		text.WriteString(a.Log.Text + "\n")
		row("Evidence", a.Log.Kept)
		return text.String()
	}
	c := a.Certificate
	row("What happened", a.Text)
	row("Problem", c.Fault)
	for _, match := range c.Matches[:min(len(c.Matches), MaxNames)] {
		place := match.Place
		if !match.Proved {
			place += ", not decided by the proved library"
		}
		row("Watched name", fmt.Sprintf("%s (%s)", match.Name, place))
		for _, host := range match.Hosts {
			row("  is in", host)
		}
	}
	if more := len(c.Matches) - MaxNames; more > 0 {
		row("More watched names", strconv.Itoa(more))
	}
	for _, name := range c.Names {
		row("Name", name)
	}
	if more := c.NameCount - len(c.Names); more > 0 {
		row("More names", fmt.Sprintf("%d", more))
	}
	row("Subject", c.Fields.Subject)
	row("Issuer", orUnread(c.Fields.Issuer))
	row("Valid", validity(c.Fields))
	row("Serial number", orUnread(c.Fields.SerialNumber))
	row("Key, SHA-256", c.Fields.KeySHA256)
	row("Certificate, SHA-256", c.SHA256)
	for _, sighting := range c.Sightings {
		row("Log", fmt.Sprintf("%s, entry %d, %s, %s", sighting.Log, sighting.Index, sighting.Type,
			sighting.Timestamp.UTC().Format(time.RFC3339)))
	}
	row("Certificate", c.Kept)
	return text.String()
}

// Subject returns the subject of a mail about alerts, of which there is at least one.
func Subject(alerts []Alert) string {
	first := alerts[0]
	subject := ""
	switch {
	case first.Log != nil:
		subject = fmt.Sprintf("log %s: %s", first.Log.Name, first.Log.Verdict)
	case first.Text != "":
		subject = fmt.Sprintf("%s: %s", first.Kind, first.Text)
	case first.Kind == Unread:
		subject = "a certificate whose names cannot be read"
	default:
		names := append(hosts(first.Certificate), "a certificate")
		subject = "certificate for " + names[0]
	}
	if len(alerts) > 1 {
		subject += " and " + Count(int64(len(alerts)-1), "more alert")
	}
	return "[ctwatch] " + subject
}
