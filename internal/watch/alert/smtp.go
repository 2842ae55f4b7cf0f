package alert

import (
	"context"
	"fmt"
	"net"
	"net/smtp"
	"strings"
)

// loopbackServer returns the address of the mail server (RFC 5321) that the place names by smtp://HOST:PORT. The place
// is a program if isServer is false. The error says what to write if the host is not this machine: mail would then leave
// it without TLS.
func loopbackServer(place string) (address string, isServer bool, err error) {
	address, isServer = strings.CutPrefix(place, "smtp://")
	if !isServer && !strings.HasPrefix(place, "smtps://") {
		return "", false, nil
	}
	host, port, err := net.SplitHostPort(address)
	if !isServer || err != nil || port == "" || host != "localhost" && !net.ParseIP(host).IsLoopback() {
		return "", true, fmt.Errorf("sendmail %q is no mail server of this machine (write smtp://127.0.0.1:25, or the path "+
			"of a program with the interface of sendmail, such as msmtp, which uses TLS and logs in to a server elsewhere)",
			place)
	}
	return address, true, nil
}

// bySMTP returns a function that hands a mail to a mail server of this machine, without TLS and without a login.
func bySMTP(address string) func(context.Context, string, []string, []byte) error {
	return func(ctx context.Context, from string, to []string, message []byte) error {
		connection, err := (&net.Dialer{}).DialContext(ctx, "tcp", address)
		if err != nil {
			return err
		}
		defer connection.Close()
		if deadline, ok := ctx.Deadline(); ok {
			if err := connection.SetDeadline(deadline); err != nil {
				return err
			}
		}
		client, err := smtp.NewClient(connection, "localhost")
		if err != nil {
			return err
		}
		return send(client, from, to, message)
	}
}

// send hands over the mail, and ends the connection.
func send(client *smtp.Client, from string, to []string, message []byte) error {
	if err := client.Mail(from); err != nil {
		return err
	}
	for _, address := range to {
		if err := client.Rcpt(address); err != nil {
			return err
		}
	}
	body, err := client.Data()
	if err != nil {
		return err
	}
	if _, err := body.Write(message); err != nil {
		return err
	}
	// The server has accepted the mail after it has answered to its end. So the mail must not be sent again if QUIT fails.
	if err := body.Close(); err != nil {
		return err
	}
	_ = client.Quit()
	return nil
}
