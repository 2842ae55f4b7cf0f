package alert

import (
	"bytes"
	"context"
	"encoding/json"
	"errors"
	"fmt"
	"io"
	"net/http"
	"net/url"
	"time"
)

// The bounds of requests to a webhook.
const (
	requestsPerBatch = 50
	webhookTimeout   = 30 * time.Second
	maxAnswer        = 64 << 10 // bytes
)

// Webhook posts each alert to a URL, as JSON. A status of 200 to 299 means that the alert was accepted.
type Webhook struct {
	url    string
	client *http.Client
	agent  string
}

// NewWebhook returns an output that posts to this URL, with this User-Agent. Redirects are not followed: an alert
// goes only to the host that the owner named.
func NewWebhook(address, agent string) (*Webhook, error) {
	parsed, err := url.Parse(address)
	if err != nil || parsed.Host == "" || parsed.Scheme != "http" && parsed.Scheme != "https" {
		return nil, fmt.Errorf("webhook %q is no URL (write https://HOST/PATH)", address)
	}
	client := &http.Client{Timeout: webhookTimeout, CheckRedirect: func(*http.Request,
		[]*http.Request) error {
		return http.ErrUseLastResponse
	}}
	return &Webhook{address, client, agent}, nil
}

// Name returns the name of this output, which no other output has. It does not contain the URL's password and query.
func (w *Webhook) Name() string {
	parsed, err := url.Parse(w.url)
	if err != nil {
		return "webhook"
	}
	parsed.RawQuery = ""
	return "webhook " + parsed.Redacted()
}

// Batch returns the maximum number of alerts that are posted before they are marked.
func (w *Webhook) Batch() int { return requestsPerBatch }

// Send posts the alerts, one after the other.
func (w *Webhook) Send(ctx context.Context, alerts []Alert) (sent, tried int, err error) {
	for i, alert := range alerts {
		if err := w.post(ctx, alert); err != nil {
			return i, i + 1, err
		}
	}
	return len(alerts), len(alerts), nil
}

func (w *Webhook) post(ctx context.Context, alert Alert) error {
	body, err := json.Marshal(alert)
	if err != nil {
		return err
	}
	request, err := http.NewRequestWithContext(ctx, http.MethodPost, w.url, bytes.NewReader(body))
	if err != nil {
		return err
	}
	request.Header.Set("Content-Type", "application/json")
	request.Header.Set("User-Agent", w.agent)
	response, err := w.client.Do(request)
	if err != nil {
		// The text of a url.Error contains the whole URL, which may contain a password.
		var fault *url.Error
		if errors.As(err, &fault) {
			err = fault.Err
		}
		return err
	}
	defer response.Body.Close()
	// The connection can be used again only if the answer was read. If reading fails, the status still counts.
	_, _ = io.Copy(io.Discard, io.LimitReader(response.Body, maxAnswer))
	if response.StatusCode < 200 || response.StatusCode > 299 {
		return fmt.Errorf("the webhook answered %s (it must answer 200 to 299)", response.Status)
	}
	return nil
}
