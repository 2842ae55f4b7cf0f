package alert_test

import (
	"bufio"
	"context"
	"fmt"
	"net"
	"strings"
	"testing"

	"wagtenib/internal/watch/alert"
)

// mailServer serves one client by SMTP (RFC 5321), and sends its lines to a channel. It refuses a line that begins with
// `refuses`, unless that is empty.
func mailServer(t *testing.T, refuses string) (address string, got <-chan []string) {
	t.Helper()
	listener, err := net.Listen("tcp", "127.0.0.1:0")
	must(t, err)
	t.Cleanup(func() { listener.Close() })
	lines := make(chan []string, 1)
	go func() {
		connection, err := listener.Accept()
		if err != nil {
			return
		}
		defer connection.Close()
		lines <- talk(connection, refuses)
	}()
	return listener.Addr().String(), lines
}

// talk answers a client as a mail server does, and returns the client's lines.
func talk(connection net.Conn, refuses string) []string {
	var got []string
	fmt.Fprint(connection, "220 mail.example\r\n")
	reader, inData := bufio.NewReader(connection), false
	for {
		line, err := reader.ReadString('\n')
		if err != nil {
			return got
		}
		line = strings.TrimRight(line, "\r\n")
		got = append(got, line)
		word, _, _ := strings.Cut(line, " ")
		switch {
		case inData && line != ".":
			continue
		case refuses != "" && strings.HasPrefix(line, refuses) && (refuses != "." || line == "."):
			fmt.Fprint(connection, "550 no\r\n")
			return got
		case word == "DATA":
			inData = true
			fmt.Fprint(connection, "354 go on\r\n")
			continue
		case word == "QUIT":
			fmt.Fprint(connection, "221 bye\r\n")
			return got
		}
		inData = false
		fmt.Fprint(connection, "250 ok\r\n")
	}
}

// TestSendsMailBySMTP: a mail server gets the mail for both addresses. A line with a dot in a certificate does not end
// the mail.
func TestSendsMailBySMTP(t *testing.T) {
	address, got := mailServer(t, "")
	output, err := alert.NewMail("owner@example.org", []string{"owner@example.org", "other@example.org"},
		"smtp://"+address)
	must(t, err)
	if sent, _, err := output.Send(context.Background(),
		[]alert.Alert{certificateOf("\r\n.\r\nRCPT TO:<victim@example.net>")}); sent != 1 || err != nil {
		t.Fatal(sent, err)
	}
	var commands []string
	for _, line := range <-got {
		if strings.HasPrefix(line, "MAIL") || strings.HasPrefix(line, "RCPT") || line == "." {
			commands = append(commands, line)
		}
	}
	want := "MAIL FROM:<owner@example.org> RCPT TO:<owner@example.org> RCPT TO:<other@example.org> ."
	if strings.Join(commands, " ") != want {
		t.Errorf("the server got %q", commands)
	}
}

// TestReportsRefusedMail: if the server refuses the sender, an address, or the mail at its end, no alert counts as
// sent.
func TestReportsRefusedMail(t *testing.T) {
	for _, refuses := range []string{"MAIL", "RCPT", "DATA", "."} {
		address, _ := mailServer(t, refuses)
		output, err := alert.NewMail("owner@example.org", []string{"owner@example.org"},
			"smtp://"+address)
		must(t, err)
		if sent, _, err := output.Send(context.Background(), []alert.Alert{certificateOf("a")}); sent != 0 ||
			err == nil || !strings.Contains(err.Error(), "550") {
			t.Errorf("%s is refused: %d sent: %v", refuses, sent, err)
		}
	}
}

// TestRefusesMailServersElsewhere: NewMail refuses a mail server that is not this machine, TLS, and an address without a
// port. The error says what to write.
func TestRefusesMailServersElsewhere(t *testing.T) {
	for place, isRight := range map[string]bool{"smtp://127.0.0.1:25": true, "smtp://[::1]:25": true,
		"smtp://localhost:587": true, "smtp://mail.example:25": false, "smtp://192.0.2.7:25": false,
		"smtp://localhost.example:25": false, "smtp://127.0.0.1": false, "smtp://127.0.0.1:": false, "smtp://:25": false, "smtp://": false,
		"smtps://127.0.0.1:465": false} {
		_, err := alert.NewMail("owner@example.org", []string{"owner@example.org"}, place)
		if (err == nil) != isRight || err != nil && !strings.Contains(err.Error(), "write smtp://127.0.0.1:25, or") {
			t.Errorf("%s: %v", place, err)
		}
	}
}
