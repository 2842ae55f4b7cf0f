package main

import (
	"os"
	"path/filepath"
	"strings"
	"testing"
)

// TestRefusesRemovedSettings: a setting that earlier builds had is refused with status 2 and one line, as a flag and in
// the file. The line names what replaces it, and no store is created.
func TestRefusesRemovedSettings(t *testing.T) {
	folder := t.TempDir()
	store, path := filepath.Join(folder, "store"), filepath.Join(folder, "settings")
	for setting, remedy := range map[string]string{
		"mail-user you":             "write sendmail with the path of a program that logs in",
		"mail-password-file secret": "or use webhook or command",
		"mail-roots roots.pem":      "such as msmtp",
		"quiet true":                "redirect standard output to /dev/null",
		"search-bytes true":         "leave it out",
		"keep-all true":             "write keep FOLDER",
	} {
		name, value, _ := strings.Cut(setting, " ")
		must(t, os.WriteFile(path, []byte("name example.org\n"+setting+"\n"), 0o600))
		for where, arguments := range map[string][]string{
			"--" + name + " any more (":           {"--name", "example.org", "--" + name + "=" + value},
			"line 2: there is no setting " + name: {"--config", path},
		} {
			status, out, faults := ctwatch(t, append([]string{"run", "--once", "--folder", store}, arguments...)...)
			if status != statusUsage || out != "" || strings.Count(faults, "\n") != 1 ||
				!strings.Contains(faults, where) || !strings.Contains(faults, remedy) {
				t.Errorf("%s: status %d: %s%s", setting, status, out, faults)
			}
		}
	}
	if _, err := os.Stat(store); !os.IsNotExist(err) {
		t.Errorf("a run that is refused has created its folder: %v", err)
	}
}
