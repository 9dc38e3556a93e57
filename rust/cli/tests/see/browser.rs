//! A headless Chromium, told what to do by its DevTools protocol over a pair of pipes.

use super::json::{parse, quoted, Json};
use std::fs::{self, File};
use std::io::{self, BufRead, BufReader, Write};
use std::path::{Path, PathBuf};
use std::process::{Child, Command, Stdio};
use std::sync::mpsc::{self, Receiver};
use std::time::{Duration, Instant};

/// How long an answer may take, on a machine that is busy.
const PATIENCE: Duration = Duration::from_secs(300);

pub struct Browser {
    child: Child,
    to: File,
    from: Receiver<String>,
    number: usize,
    /// What was told without being asked for.
    events: Vec<Json>,
}

/// A page of a browser.
#[derive(Clone)]
pub struct Tab(String);

/// Where Chromium is.
fn program() -> Option<PathBuf> {
    let path = std::env::var_os("PATH")?;
    let names = ["chromium", "chromium-browser", "google-chrome", "google-chrome-stable"];
    let mut all =
        names.iter().flat_map(|name| std::env::split_paths(&path).map(move |at| at.join(name)));
    all.find(|path| path.is_file())
}

/// A browser that keeps what is its own in the folder; none, told aloud, where there
/// is no Chromium. The words go past the test harness, which would keep them back.
pub fn start(folder: &Path, test: &str, more: &[&str]) -> Option<Browser> {
    let Some(program) = program() else {
        let words = "there is no chromium here (Debian: apt-get install chromium)";
        let _ =
            writeln!(io::stderr(), "SKIPPED {test}: {words}: the page was not tried in a browser");
        return None;
    };
    let pipes = Command::new("mkfifo").args(["to", "from"]).current_dir(folder).status();
    assert!(pipes.expect("mkfifo runs").success());
    let mut command = Command::new("sh");
    command.args(["-c", "exec \"$0\" \"$@\" 3<to 4>from"]).arg(program);
    command.args(["--headless=new", "--remote-debugging-pipe", "--no-sandbox", "--no-first-run"]);
    command.args([
        "--use-angle=swiftshader",
        "--enable-unsafe-swiftshader",
        "--disable-gpu-watchdog",
    ]);
    command.args([
        "--disable-background-networking",
        "--disable-component-update",
        "--disable-dev-shm-usage",
    ]);
    command.arg(format!("--user-data-dir={}", folder.join("profile").display())).args(more);
    command.arg("about:blank").current_dir(folder).env("HOME", folder);
    command.stdin(Stdio::null()).stdout(Stdio::null()).stderr(Stdio::null());
    let child = command.spawn().expect("sh runs");
    let to = File::options().write(true).open(folder.join("to")).expect("a pipe");
    let from = File::open(folder.join("from")).expect("a pipe");
    Some(Browser { child, to, from: listen(from), number: 0, events: Vec::new() })
}

/// The messages of a pipe, each ended by a zero byte.
fn listen(from: File) -> Receiver<String> {
    let (sender, receiver) = mpsc::channel();
    std::thread::spawn(move || {
        for message in BufReader::new(from).split(0) {
            let Ok(message) = message else { return };
            if sender.send(String::from_utf8_lossy(&message).into_owned()).is_err() {
                return;
            }
        }
    });
    receiver
}

impl Drop for Browser {
    fn drop(&mut self) {
        let _ = self.to.write_all(b"{\"id\": 0, \"method\": \"Browser.close\"}\0");
        let until = Instant::now() + Duration::from_secs(10);
        while Instant::now() < until && matches!(self.child.try_wait(), Ok(None)) {
            std::thread::sleep(Duration::from_millis(20));
        }
        let _ = self.child.kill();
        let _ = self.child.wait();
    }
}

impl Browser {
    fn message(&mut self) -> Json {
        parse(&self.from.recv_timeout(PATIENCE).expect("Chromium answers"))
    }

    /// Asks for something, and waits for the answer.
    #[track_caller]
    pub fn ask(&mut self, tab: Option<&Tab>, method: &str, parameters: &str) -> Json {
        self.number += 1;
        let number = self.number;
        let session =
            tab.map(|tab| format!(", \"sessionId\": {}", quoted(&tab.0))).unwrap_or_default();
        let text = format!(
            "{{\"id\": {number}, \"method\": \"{method}\", \"params\": {parameters}{session}}}\0"
        );
        self.to.write_all(text.as_bytes()).expect("Chromium listens");
        loop {
            let message = self.message();
            if matches!(message.get("id"), Json::Number(id) if *id == number as f64) {
                assert_eq!(message.get("error"), &Json::Null, "{method} {parameters:.300}");
                return message.get("result").clone();
            }
            self.events.push(message);
        }
    }

    /// An empty page of this size.
    pub fn tab(&mut self, wide: usize, high: usize) -> Tab {
        let target = self.ask(None, "Target.createTarget", "{\"url\": \"about:blank\"}");
        let target = quoted(target.get("targetId").text());
        let attach = format!("{{\"targetId\": {target}, \"flatten\": true}}");
        let session = self.ask(None, "Target.attachToTarget", &attach);
        let tab = Tab(session.get("sessionId").text().into());
        for part in ["Page", "Runtime", "Network", "Log"] {
            self.ask(Some(&tab), &format!("{part}.enable"), "{}");
        }
        let size = format!("{{\"width\": {wide}, \"height\": {high}, \"deviceScaleFactor\": 1, \"mobile\": false}}");
        self.ask(Some(&tab), "Emulation.setDeviceMetricsOverride", &size);
        let calm =
            "{\"features\": [{\"name\": \"prefers-reduced-motion\", \"value\": \"reduce\"}]}";
        self.ask(Some(&tab), "Emulation.setEmulatedMedia", calm);
        tab
    }

    /// Opens a file and waits until it is there.
    pub fn open(&mut self, tab: &Tab, path: &Path) {
        let path = fs::canonicalize(path).expect("a file");
        self.events.clear();
        let url = format!("{{\"url\": {}}}", quoted(&format!("file://{}", path.display())));
        self.ask(Some(tab), "Page.navigate", &url);
        while self.events(tab, "Page.loadEventFired").is_empty() {
            let message = self.message();
            self.events.push(message);
        }
    }

    /// What was told of this by a page.
    pub fn events(&self, tab: &Tab, method: &str) -> Vec<&Json> {
        let own = |event: &&Json| {
            event.get("method").text() == method && event.get("sessionId").text() == tab.0
        };
        self.events.iter().filter(own).collect()
    }

    /// The value of an expression, as text.
    #[track_caller]
    pub fn value(&mut self, tab: &Tab, expression: &str) -> String {
        let text = quoted(&format!("(async () => String(await ({expression})))()"));
        let ask =
            format!("{{\"expression\": {text}, \"awaitPromise\": true, \"returnByValue\": true}}");
        let answer = self.ask(Some(tab), "Runtime.evaluate", &ask);
        assert_eq!(answer.get("exceptionDetails"), &Json::Null, "{expression:.300}");
        answer.get("result").get("value").text().into()
    }

    #[track_caller]
    pub fn number(&mut self, tab: &Tab, expression: &str) -> f64 {
        self.value(tab, expression).parse().expect("a number")
    }

    /// Waits for two frames, so that what was asked for is drawn. A page that lies behind
    /// another has none.
    #[track_caller]
    pub fn settle(&mut self, tab: &Tab) {
        self.ask(Some(tab), "Page.bringToFront", "{}");
        let frames =
            "new Promise((done) => requestAnimationFrame(() => requestAnimationFrame(done)))";
        self.value(tab, frames);
    }

    #[track_caller]
    pub fn mouse(&mut self, tab: &Tab, kind: &str, [x, y]: [f64; 2], more: &str) {
        let event = format!("{{\"type\": \"{kind}\", \"x\": {x}, \"y\": {y}, {more}}}");
        self.ask(Some(tab), "Input.dispatchMouseEvent", &event);
    }

    /// A drag with the mouse: the left or the right button.
    #[track_caller]
    pub fn drag(&mut self, tab: &Tab, button: &str, from: [f64; 2], to: [f64; 2]) {
        let held = format!(
            "\"button\": \"{button}\", \"buttons\": {}, \"clickCount\": 1",
            if button == "left" { 1 } else { 2 }
        );
        self.mouse(tab, "mousePressed", from, &held);
        for step in 1..=5 {
            let part = f64::from(step) / 5.0;
            let at = [0, 1].map(|axis| from[axis] + (to[axis] - from[axis]) * part);
            self.mouse(tab, "mouseMoved", at, &held);
        }
        self.mouse(tab, "mouseReleased", to, &held);
        self.settle(tab);
    }

    #[track_caller]
    pub fn click(&mut self, tab: &Tab, at: [f64; 2]) {
        let held = "\"button\": \"left\", \"buttons\": 1, \"clickCount\": 1";
        self.mouse(tab, "mousePressed", at, held);
        self.mouse(tab, "mouseReleased", at, held);
        self.settle(tab);
    }

    /// A key, by what it gives: a letter, or a name like `Enter`.
    #[track_caller]
    pub fn key(&mut self, tab: &Tab, key: &str) {
        let text =
            if key.len() == 1 { format!(", \"text\": {}", quoted(key)) } else { String::new() };
        for kind in ["keyDown", "keyUp"] {
            let text = if kind == "keyDown" { &text[..] } else { "" };
            let event = format!("{{\"type\": \"{kind}\", \"key\": {}{text}}}", quoted(key));
            self.ask(Some(tab), "Input.dispatchKeyEvent", &event);
        }
        self.settle(tab);
    }

    /// Text, as if typed.
    #[track_caller]
    pub fn typed(&mut self, tab: &Tab, text: &str) {
        self.ask(Some(tab), "Input.insertText", &format!("{{\"text\": {}}}", quoted(text)));
        self.settle(tab);
    }

    /// What a part of the page looks like, as a PNG picture in base64.
    #[track_caller]
    pub fn picture(&mut self, tab: &Tab, [x, y, wide, high]: [usize; 4]) -> String {
        self.settle(tab);
        let clip = format!(
            "{{\"x\": {x}, \"y\": {y}, \"width\": {wide}, \"height\": {high}, \"scale\": 1}}"
        );
        let answer = self.ask(
            Some(tab),
            "Page.captureScreenshot",
            &format!("{{\"format\": \"png\", \"clip\": {clip}}}"),
        );
        answer.get("data").text().into()
    }

    /// How many pixels of a picture are not as its first one, and how many are other
    /// than in a second one. An empty page counts them.
    #[track_caller]
    pub fn pixels(&mut self, counter: &Tab, first: &str, second: &str) -> (usize, usize) {
        let count = format!(
            "(async () => {{
               const read = async (text) => {{
                 const image = await createImageBitmap(await (await fetch('data:image/png;base64,' + text)).blob());
                 const pen = new OffscreenCanvas(image.width, image.height).getContext('2d');
                 pen.drawImage(image, 0, 0);
                 return pen.getImageData(0, 0, image.width, image.height).data;
               }};
               const [a, b] = [await read('{first}'), await read('{second}')];
               const unlike = (a, i, b, j) => [0, 1, 2].some((part) => Math.abs(a[i + part] - b[j + part]) > 24);
               let [drawn, other] = [0, 0];
               for (let at = 0; at < a.length; at += 4) {{
                 if (unlike(a, at, a, 0)) drawn++;
                 if (unlike(a, at, b, at)) other++;
               }}
               return drawn + ' ' + other;
             }})()"
        );
        let counts = self.value(counter, &count);
        let (drawn, other) = counts.split_once(' ').expect("two numbers");
        (drawn.parse().expect("a number"), other.parse().expect("a number"))
    }
}
