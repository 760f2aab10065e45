package jwt

import (
	"errors"
	"io"
	"net"
	"net/http"
	"os"
	"os/exec"
	"path/filepath"
	"strings"
	"syscall"
	"testing"
	"time"
)

// TestOtherPlatforms builds the package where it has no library: the one error says what it needs.
func TestOtherPlatforms(t *testing.T) {
	for _, it := range [][]string{{"CGO_ENABLED=0"}, {"GOOS=darwin", "GOARCH=arm64"}, {"GOOS=windows"}, {"GOARCH=arm64"}, {"GOARCH=386"}} {
		// without cgo, since there is no C compiler for the other platforms
		build := exec.Command("go", "build", ".")
		build.Env = append(append(os.Environ(), "CGO_ENABLED=0"), it...)
		said, err := build.CombinedOutput()
		text := string(said)
		if err == nil || strings.Count(text, ".go:") != 1 || !strings.Contains(text, "needs_CGO_ENABLED_1_and_a_C_compiler_on_Linux_for_amd64") {
			t.Errorf("%v: %v, %s", it, err, text)
		}
	}
}

// lineOfPage returns the line of README.md that has this text.
func lineOfPage(t *testing.T, has string) string {
	t.Helper()
	page, err := os.ReadFile("README.md")
	if err != nil {
		t.Fatal(err)
	}
	for _, it := range strings.Split(string(page), "\n") {
		if strings.Contains(it, has) {
			return it
		}
	}
	t.Fatal("README.md has no line with " + has)
	return ""
}

// inEmptyFolder returns the command that runs a program alone in the folder that it is in, whose root it becomes.
func inEmptyFolder(program string) *exec.Cmd {
	command := exec.Command("/" + filepath.Base(program))
	command.Dir = "/"
	command.SysProcAttr = &syscall.SysProcAttr{Chroot: filepath.Dir(program)}
	if os.Getuid() != 0 {
		command.SysProcAttr.Cloneflags = syscall.CLONE_NEWUSER
		command.SysProcAttr.UidMappings = []syscall.SysProcIDMap{{HostID: os.Getuid(), Size: 1}}
		command.SysProcAttr.GidMappings = []syscall.SysProcIDMap{{HostID: os.Getgid(), Size: 1}}
	}
	return command
}

// TestStaticBuild builds the service of the examples by the line of README.md, and runs it where there is nothing else: it issues tokens
// and accepts them, those of the last key too after it has rotated.
func TestStaticBuild(t *testing.T) {
	program := filepath.Join(t.TempDir(), "service")
	build := exec.Command("sh", "-c", strings.Replace(lineOfPage(t, "-extldflags -static"), "-o service .", "-o "+program+" ./service", 1))
	build.Dir = "examples"
	if said, err := build.CombinedOutput(); err != nil || len(said) > 0 {
		t.Fatalf("%v: %s", err, said)
	}
	at, ended := startService(t, program)
	issued := func(sub string) string { return answerOf(t, at+"/token?sub="+sub, "", ended) }
	page := func(token string) string { return answerOf(t, at+"/", token, ended) }
	token := issued("ada")
	if page(token) != "hello ada\n" || page("") != "Unauthorized\n" || page(token[:len(token)-8]+"AAAAAAAA") != "Unauthorized\n" {
		t.Error(page(token), page(""))
	}
	for i := 0; i < 20; i++ { // on a busy machine keys may rotate twice meanwhile
		next := issued("bob")
		for kidOf(t, next) == kidOf(t, token) {
			next = issued("bob")
		}
		if page(next) == "hello bob\n" && page(token) == "hello ada\n" {
			return
		}
		token = issued("ada")
	}
	t.Error("tokens of two keys are not accepted")
}

func kidOf(t *testing.T, token string) any {
	t.Helper()
	header, err := UnverifiedHeader(token)
	if err != nil {
		t.Fatal(token, err)
	}
	return header["kid"]
}

// startService runs the service on a free port, and returns where it is and what tells its end.
func startService(t *testing.T, program string) (string, <-chan error) {
	t.Helper()
	free, err := net.Listen("tcp", "127.0.0.1:0")
	if err != nil {
		t.Fatal(err)
	}
	address := free.Addr().String()
	free.Close()
	service := inEmptyFolder(program)
	service.Args = append(service.Args, address, "5s")
	if err := service.Start(); errors.Is(err, os.ErrPermission) {
		t.Skip("this user may not change the root: ", err)
	} else if err != nil {
		t.Fatal(err)
	}
	ended := make(chan error, 1)
	go func() { ended <- service.Wait() }()
	t.Cleanup(func() { _ = service.Process.Kill() })
	return "http://" + address, ended
}

// answerOf returns what the service answers, once it listens.
func answerOf(t *testing.T, uri, token string, ended <-chan error) string {
	t.Helper()
	request, err := http.NewRequest(http.MethodGet, uri, nil)
	if err != nil {
		t.Fatal(err)
	}
	if token != "" {
		request.Header.Set("Authorization", "Bearer "+token)
	}
	for {
		response, err := http.DefaultClient.Do(request)
		if err == nil {
			defer response.Body.Close()
			text, _ := io.ReadAll(response.Body)
			return string(text)
		}
		select {
		case end := <-ended:
			t.Fatal("the service has ended: ", end, err)
		case <-time.After(20 * time.Millisecond):
		}
	}
}
