package main

import (
	"os"
	"os/exec"
	"path/filepath"
	"regexp"
	"strings"
	"testing"
)

// maxExposure is the maximum exposure of a unit, in tenths, as systemd-analyze reckons it. That of the log is 16.
const maxExposure = "20"

// TestUnitsAreConfined: systemd counts the units of the watcher and of the witness as confined. A file that begins with
// the name of a template must have an instance's name.
func TestUnitsAreConfined(t *testing.T) {
	analyze, err := exec.LookPath("systemd-analyze")
	if err != nil {
		t.Skip("systemd-analyze is not installed")
	}
	for _, unit := range []string{"ctwatch.service", "ctwitness@.service"} {
		path := filepath.Join(t.TempDir(), strings.Replace(unit, "@", "@one", 1))
		must(t, os.WriteFile(path, []byte(readAll(t, "../../release/systemd/"+unit)), 0o600))
		command := exec.Command(analyze, "security", "--offline=true", "--no-pager", "--threshold="+maxExposure, path)
		if out, err := command.CombinedOutput(); err != nil {
			t.Errorf("%s: %v: %s", unit, err, out[max(len(out)-200, 0):])
		}
	}
}

// impliesNoNewPrivileges are the settings of a unit that keep each of its programs from another group or user, because
// they imply NoNewPrivileges or are it (systemd.exec(5)), or because the user or the file does not exist for them.
var impliesNoNewPrivileges = []string{"NoNewPrivileges", "DynamicUser", "LockPersonality", "MemoryDenyWriteExecute",
	"PrivateDevices", "ProtectClock", "ProtectHostname", "ProtectKernelLogs", "ProtectKernelModules",
	"ProtectKernelTunables", "RestrictAddressFamilies", "RestrictNamespaces", "RestrictRealtime", "RestrictSUIDSGID",
	"SystemCallArchitectures", "SystemCallFilter", "SystemCallLog", "CapabilityBoundingSet", "PrivateUsers"}

// TestDropInLetsSendmailRun: the drop-in of the page takes back each setting of the unit that keeps sendmail from its
// group, and makes the spool writable.
func TestDropInLetsSendmailRun(t *testing.T) {
	setting := regexp.MustCompile(`(?m)^(?:    )?([A-Za-z]+)=(\S*)`)
	_, page, found := strings.Cut(readAll(t, "../../docs/WATCH.md"), "    [Service]\n")
	if !found {
		t.Fatal("the page has no drop-in")
	}
	page, _, _ = strings.Cut(page, "\n\n")
	dropIn := map[string]string{}
	for _, one := range setting.FindAllStringSubmatch(page, -1) {
		dropIn[one[1]] = one[2]
	}
	count := 0
	for _, one := range setting.FindAllStringSubmatch(readAll(t, "../../release/systemd/ctwatch.service"), -1) {
		for _, name := range impliesNoNewPrivileges {
			if one[1] != name {
				continue
			}
			count++
			if value, ok := dropIn[name]; !ok || value != "no" && value != "" && value != "~" {
				t.Errorf("the drop-in leaves %s=%s", name, one[2])
			}
		}
	}
	if count < 15 || dropIn["ProtectSystem"] != "full" {
		t.Errorf("%d settings of the unit were compared, and ProtectSystem is %q", count, dropIn["ProtectSystem"])
	}
}
