package httpd

import (
	"encoding/json"
	"fmt"
	"net/http/httptest"
	"os"
	"os/exec"
	"path/filepath"
	"regexp"
	"strings"
	"testing"
	"time"
)

// metricNames returns the names of all metrics in /metrics of a log with a witness, after a request.
func metricNames(t *testing.T) map[string]bool {
	t.Helper()
	f := newFixture(t, 0, func(o *Options) { o.About.MaxMergeDelay = time.Minute })
	f.get("/ct/v1/get-roots")
	f.get("/ct/v1/none")
	f.front.Reloaded("roots", nil)
	w := httptest.NewRecorder()
	f.front.Operator().ServeHTTP(w, httptest.NewRequest("GET", "/metrics", nil))
	names := map[string]bool{}
	for _, line := range strings.Split(w.Body.String(), "\n") {
		if name := regexp.MustCompile(`^[a-z_]+`).FindString(line); name != "" {
			names[name] = true
		}
	}
	return names
}

// TestRules checks that the alert rules use existing metrics, and that each alert has a section in the page of
// incidents. release/prometheus/check.sh checks their expressions with promtool.
func TestRules(t *testing.T) {
	rules, err := os.ReadFile("../../../release/prometheus/ctserve.rules.yml")
	if err != nil {
		t.Fatal(err)
	}
	there := metricNames(t)
	incidents, err := os.ReadFile("../../../docs/INCIDENTS.md")
	if err != nil {
		t.Fatal(err)
	}
	for _, alert := range regexp.MustCompile(`alert: (\w+)`).FindAllStringSubmatch(string(rules), -1) {
		if !strings.Contains(string(incidents), "`"+alert[1]+"`") {
			t.Errorf("INCIDENTS.md does not say what to do at %s", alert[1])
		}
	}
	for _, named := range regexp.MustCompile("`(Ctserve\\w+)`").FindAllStringSubmatch(string(incidents), -1) {
		if !strings.Contains(string(rules), "alert: "+named[1]+"\n") {
			t.Errorf("INCIDENTS.md says what to do at %s, which is no alert", named[1])
		}
	}
	names := regexp.MustCompile(`\bctserve_[a-z_]+`).FindAllString(string(rules), -1)
	if len(names) < 13 {
		t.Errorf("the rules name %d metrics", len(names))
	}
	for _, name := range names {
		if !there[name] {
			t.Errorf("there is no metric %s", name)
		}
	}
}

// TestDashboard checks that each expression of the dashboard uses existing metrics, and variables of its list, and that
// promtool accepts it, if that is installed. The dashboard must show each metric that an alert uses.
func TestDashboard(t *testing.T) {
	content, err := os.ReadFile("../../../release/prometheus/ctserve.dashboard.json")
	if err != nil {
		t.Fatal(err)
	}
	var board struct {
		Panels []struct {
			ID      int
			Title   string
			Targets []struct{ Expr string }
			GridPos struct{ X, Y, W, H int }
		}
		Templating struct {
			List []struct{ Name, Query string }
		}
	}
	if err := json.Unmarshal(content, &board); err != nil {
		t.Fatal(err)
	}
	variables := map[string]bool{"__rate_interval": true}
	for _, of := range board.Templating.List {
		variables[of.Name] = true
	}
	there, rules, places, shown := metricNames(t), "groups:\n- name: dashboard\n  rules:\n", map[[2]int]string{}, ""
	for _, panel := range board.Panels {
		at := [2]int{panel.GridPos.X, panel.GridPos.Y}
		if places[at] != "" || panel.GridPos.X+panel.GridPos.W > 24 || len(panel.Targets) == 0 {
			t.Errorf("%s: at %v is %q, or it shows nothing", panel.Title, at, places[at])
		}
		places[at] = panel.Title
		for i, target := range panel.Targets {
			shown += target.Expr + "\n"
			for _, name := range regexp.MustCompile(`\b(?:ctserve|process)_[a-z_]+`).FindAllString(target.Expr, -1) {
				if !there[name] {
					t.Errorf("%s: there is no metric %s", panel.Title, name)
				}
			}
			for _, of := range regexp.MustCompile(`\$(\w+)`).FindAllStringSubmatch(target.Expr, -1) {
				if !variables[of[1]] {
					t.Errorf("%s: there is no variable %s", panel.Title, of[1])
				}
			}
			expression := strings.NewReplacer("$__rate_interval", "5m", "$instance", ".*").Replace(target.Expr)
			quoted, _ := json.Marshal(expression)
			rules += fmt.Sprintf("  - record: panel:%d:%d\n    expr: %s\n", panel.ID, i, quoted)
		}
	}
	alerts, err := os.ReadFile("../../../release/prometheus/ctserve.rules.yml")
	if err != nil {
		t.Fatal(err)
	}
	for _, name := range regexp.MustCompile(`\bctserve_[a-z_]+`).FindAllString(string(alerts), -1) {
		if !strings.Contains(shown, name) && name != "ctserve_reloads_total" {
			t.Errorf("an alert uses %s, but no panel shows it", name)
		}
	}
	promtool, err := exec.LookPath("promtool")
	if err != nil {
		t.Skip("promtool is not installed")
	}
	file := filepath.Join(t.TempDir(), "rules.yml")
	if err := os.WriteFile(file, []byte(rules), 0o600); err != nil {
		t.Fatal(err)
	}
	if output, err := exec.Command(promtool, "check", "rules", file).CombinedOutput(); err != nil {
		t.Errorf("promtool: %s", output)
	}
}
