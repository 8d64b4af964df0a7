//! A headless Chromium, driven by its DevTools protocol over a pipe: no port is opened, and nothing is read but the files that a test names.
#![allow(dead_code)] // each test file uses some of it

use std::io::{BufRead, BufReader, Write};
use std::path::{Path, PathBuf};
use std::process::{Child, ChildStdin, ChildStdout, Command, Stdio};

use serde_json::{json, Value};

/// Light or dark, or paper.
#[derive(Clone, Copy, Debug, PartialEq, Eq)]
pub enum Look {
    Light,
    Dark,
    Paper,
}

impl Look {
    pub const ALL: [Look; 3] = [Look::Light, Look::Dark, Look::Paper];
}

/// A browser with one page.
pub struct Browser {
    child: Child,
    input: Option<ChildStdin>,
    output: BufReader<ChildStdout>,
    session: Option<String>,
    asked: u64,
    /// The documents that are wholly there.
    loaded: Vec<Value>,
    /// What the page has done since it was opened: requests, and errors that the browser told.
    pub requests: Vec<String>,
    pub errors: Vec<String>,
    profile: PathBuf,
}

impl Browser {
    /// Starts the browser with a profile of its own, which goes with it.
    pub fn start(name: &str) -> Browser {
        let profile = super::program::scratch(&format!("browser-{name}"));
        let _ = std::fs::remove_dir_all(&profile);
        std::fs::create_dir_all(&profile).expect("a profile's folder");
        // the protocol is spoken on descriptors 3 and 4: the shell makes them of what the child is given as its input and output
        let mut child = Command::new("sh")
            .args(["-c", "exec \"$@\" 3<&0 4>&1 0</dev/null 1>/dev/null", "sh"])
            .args(["chromium", "--headless=new", "--remote-debugging-pipe"])
            .args(["--no-sandbox", "--disable-gpu", "--disable-dev-shm-usage"])
            .args(["--no-first-run", "--disable-extensions", "--disable-sync"])
            .args(["--disable-background-networking", "--hide-scrollbars"])
            .arg(format!("--user-data-dir={}", profile.display()))
            .arg("about:blank")
            .stdin(Stdio::piped())
            .stdout(Stdio::piped())
            .stderr(Stdio::null())
            .spawn()
            .expect("a shell");
        let input = child.stdin.take();
        let output = BufReader::new(child.stdout.take().expect("its output"));
        let mut browser = Browser {
            child,
            input,
            output,
            session: None,
            asked: 0,
            loaded: Vec::new(),
            requests: Vec::new(),
            errors: Vec::new(),
            profile,
        };
        browser.attach();
        browser
    }

    fn attach(&mut self) {
        let made = self.ask("Target.createTarget", json!({"url": "about:blank"}));
        let target = json!({"targetId": made["targetId"], "flatten": true});
        let attached = self.ask("Target.attachToTarget", target);
        self.session = attached["sessionId"].as_str().map(String::from);
        for domain in ["Page", "Runtime", "Log", "Network"] {
            self.ask(&format!("{domain}.enable"), json!({}));
        }
        self.ask("Page.setLifecycleEventsEnabled", json!({"enabled": true}));
    }

    /// Opens a file, and waits until it is there.
    pub fn open(&mut self, file: &Path) {
        self.open_at(file, "");
    }

    /// Opens a file at a part of it.
    pub fn open_at(&mut self, file: &Path, part: &str) {
        self.requests.clear();
        self.errors.clear();
        let file = file.canonicalize().expect("a file");
        let place = json!({"url": format!("file://{}{part}", file.display())});
        let loader = self.ask("Page.navigate", place)["loaderId"].clone();
        // it may have been there before the answer was
        while !self.loaded.contains(&loader) {
            self.message();
        }
    }

    /// The value of an expression in the page.
    pub fn value(&mut self, expression: &str) -> Value {
        let asked = json!({"expression": expression, "returnByValue": true, "awaitPromise": true});
        let told = self.ask("Runtime.evaluate", asked);
        assert!(
            told.get("exceptionDetails").is_none(),
            "{expression}: {}",
            told["exceptionDetails"]
        );
        told["result"]["value"].clone()
    }

    /// The text of an expression in the page.
    pub fn text(&mut self, expression: &str) -> String {
        let value = self.value(expression);
        value
            .as_str()
            .unwrap_or_else(|| panic!("{expression}: {value}"))
            .into()
    }

    /// Presses a key by its name.
    pub fn press(&mut self, key: &str) {
        let code = match key {
            "Tab" => 9,
            "Enter" => 13,
            "Home" => 36,
            "ArrowUp" => 38,
            "ArrowDown" => 40,
            other => panic!("no code is known for {other}"),
        };
        for kind in ["rawKeyDown", "keyUp"] {
            let event = json!({"type": kind, "key": key, "code": key, "windowsVirtualKeyCode": code, "nativeVirtualKeyCode": code});
            self.ask("Input.dispatchKeyEvent", event);
        }
    }

    /// Sets the window's size.
    pub fn size(&mut self, width: u32, height: u32) {
        let size =
            json!({"width": width, "height": height, "deviceScaleFactor": 1, "mobile": false});
        self.ask("Emulation.setDeviceMetricsOverride", size);
    }

    /// Sets how the page is to look.
    pub fn look(&mut self, look: Look) {
        let media = if look == Look::Paper { "print" } else { "" };
        let scheme = if look == Look::Light { "light" } else { "dark" };
        let features = json!([{"name": "prefers-color-scheme", "value": scheme}]);
        let asked = json!({"media": media, "features": features});
        self.ask("Emulation.setEmulatedMedia", asked);
    }

    /// Lets pages run scripts, or not; what a test asks is told either way.
    pub fn scripts(&mut self, run: bool) {
        self.ask(
            "Emulation.setScriptExecutionDisabled",
            json!({"value": !run}),
        );
    }

    /// The page as pictures, one below the other.
    pub fn pictures(&mut self, name: &Path, width: u32) {
        const HEIGHT: u64 = 1600;
        let whole = self.value("document.documentElement.scrollHeight");
        let whole = whole.as_u64().expect("a height");
        for (number, top) in (0..whole).step_by(HEIGHT as usize).enumerate() {
            let height = HEIGHT.min(whole - top);
            let clip = json!({"x": 0, "y": top, "width": width, "height": height, "scale": 1});
            let asked = json!({"format": "png", "captureBeyondViewport": true, "clip": clip});
            let file = format!("{}-{number}.png", name.display());
            self.keep("Page.captureScreenshot", asked, Path::new(&file));
        }
    }

    /// The page on paper.
    pub fn paper(&mut self, file: &Path) {
        let asked = json!({"printBackground": true, "paperWidth": 8.27, "paperHeight": 11.69});
        self.keep("Page.printToPDF", asked, file);
    }

    fn keep(&mut self, method: &str, asked: Value, file: &Path) {
        let told = self.ask(method, asked);
        let data = base64::decode(told["data"].as_str().expect("data")).expect("base64");
        std::fs::write(file, data).expect("a file");
    }

    /// Asks the browser, and waits for its answer.
    fn ask(&mut self, method: &str, parameters: Value) -> Value {
        self.asked += 1;
        let mut asked = json!({"id": self.asked, "method": method, "params": parameters});
        if let Some(session) = &self.session {
            asked["sessionId"] = json!(session);
        }
        let input = self.input.as_mut().expect("an open pipe");
        write!(input, "{asked}\0").expect("a browser that reads");
        input.flush().expect("a browser that reads");
        loop {
            let told = self.message();
            if told["id"] == json!(self.asked) {
                assert!(told.get("error").is_none(), "{method}: {}", told["error"]);
                return told["result"].clone();
            }
        }
    }

    /// The next message of the browser. What the page has done is noted.
    fn message(&mut self) -> Value {
        let mut bytes = Vec::new();
        let read = self.output.read_until(0, &mut bytes);
        assert!(
            read.expect("a pipe") > 0,
            "the browser has ended: is Debian's package chromium there?"
        );
        bytes.pop();
        let message: Value = serde_json::from_slice(&bytes).expect("JSON");
        let parameters = &message["params"];
        match message["method"].as_str() {
            Some("Page.lifecycleEvent") if parameters["name"] == "load" => {
                self.loaded.push(parameters["loaderId"].clone())
            }
            Some("Network.requestWillBeSent") => self
                .requests
                .push(parameters["request"]["url"].as_str().unwrap_or("").into()),
            Some("Log.entryAdded") => self.errors.push(parameters["entry"]["text"].to_string()),
            Some("Runtime.exceptionThrown") => self.errors.push(parameters.to_string()),
            Some("Runtime.consoleAPICalled") => self.errors.push(parameters["args"].to_string()),
            Some("Page.javascriptDialogOpening") => {
                self.errors.push(parameters["message"].to_string())
            }
            _ => {}
        }
        message
    }
}

const CHECKS: &str = include_str!("checks.js");

/// Asks one of the checks.
pub fn check(browser: &mut Browser, function: &str) -> Value {
    browser.value(&format!("{CHECKS};{function}()"))
}

/// Holds a page to what is asked of every one: it can be read aloud, in light, dark and on paper, on a narrow screen; it asks for nothing else,
/// and the browser has nothing to complain of.
pub fn assert_good(browser: &mut Browser, file: &Path) {
    browser.size(1200, 900);
    browser.look(Look::Light);
    browser.open(file);
    for function in ["headings", "names", "tables"] {
        assert_eq!(check(browser, function), json!([]), "{function}");
    }
    assert_eq!(browser.text("document.documentElement.lang"), "en");
    assert_looks(browser);
    assert_eq!(browser.requests.len(), 1, "{:?}", browser.requests);
    assert_eq!(browser.errors, [""; 0]);
}

/// Holds what a page shows now to its looks: light, dark, on paper, and narrow.
pub fn assert_looks(browser: &mut Browser) {
    for look in Look::ALL {
        browser.look(look);
        let found = check(browser, "contrast");
        assert_eq!(found["faults"], json!([]), "{look:?}");
        assert!(found["seen"].as_u64() > Some(40), "{look:?}: {found}");
    }
    browser.look(Look::Light);
    browser.size(360, 740);
    assert_eq!(check(browser, "wide"), json!([]));
}

impl Drop for Browser {
    fn drop(&mut self) {
        // the browser ends when the pipe does
        self.input = None;
        let mut rest = Vec::new();
        let _ = std::io::Read::read_to_end(&mut self.output, &mut rest);
        let _ = self.child.wait();
        let _ = std::fs::remove_dir_all(&self.profile);
    }
}
