// What docs/bench/browsers has a browser do. Each function is run with all rights of the browser's own code, and
// answers plain values. The modules are those of Firefox ESR 153, and nothing of them is replaced.

const { PlacesUtils } = ChromeUtils.importESModule("resource://gre/modules/PlacesUtils.sys.mjs");
const { SyncedTabs } = ChromeUtils.importESModule("resource://services-sync/SyncedTabs.sys.mjs");
const { Weave } = ChromeUtils.importESModule("resource://services-sync/main.sys.mjs");
const { getFxAccountsSingleton } = ChromeUtils.importESModule("resource://gre/modules/FxAccounts.sys.mjs");
const { clearTimeout, setTimeout } = ChromeUtils.importESModule("resource://gre/modules/Timer.sys.mjs");

const accounts = getFxAccountsSingleton();
const SETTING = "identity.sync.tokenserver.uri";

const pause = millis => new Promise(go => setTimeout(go, millis));

async function until(holds) {
  for (let left = 300; left > 0 && !holds(); left--) {
    await pause(50);
  }
}

const announced = topic =>
  new Promise(go => {
    const watcher = () => (Services.obs.removeObserver(watcher, topic), go());
    Services.obs.addObserver(watcher, topic);
  });

// Trusts the household's certificate, as an import in the settings does, and keeps what each request to a host is
// answered: the method, the path, the condition and the status.
async function prepare(certificate, host) {
  Cc["@mozilla.org/security/x509certdb;1"].getService(Ci.nsIX509CertDB).addCertFromBase64(certificate, "C,,");
  await Cc["@mozilla.org/weave/service;1"].getService(Ci.nsISupports).wrappedJSObject.whenLoaded();
  Weave.answers = [];
  Weave.watcher = {
    observe(subject) {
      const channel = subject.QueryInterface(Ci.nsIHttpChannel);
      if (channel.URI.host == host) {
        let condition = "";
        try {
          condition = channel.getRequestHeader("X-If-Unmodified-Since");
        } catch (absent) {}
        Weave.answers.push([channel.requestMethod, channel.URI.pathQueryRef, condition, channel.responseStatus]);
      }
    },
  };
  Services.obs.addObserver(Weave.watcher, "http-on-examine-response");
}

// What was kept so far, which is then forgotten.
const takeAnswers = () => Weave.answers.splice(0);

// What comes of the next sync that has this reason and that `begin` begins: the browser also syncs by itself.
async function outcome(reason, begin) {
  const topics = ["weave:service:sync:finish", "weave:service:sync:error", "weave:service:login:error"];
  let watcher, timer;
  const end = new Promise(go => {
    timer = setTimeout(go, 70000, "no sync");
    watcher = (_, topic, told) => (topic == topics[2] || JSON.parse(told).why == reason) && go(topic);
    topics.forEach(topic => Services.obs.addObserver(watcher, topic));
  });
  await begin();
  const came = (await end).replace("weave:service:", "");
  clearTimeout(timer);
  topics.forEach(topic => Services.obs.removeObserver(watcher, topic));
  await until(() => !Weave.Service.locked);
  const { login, sync, service, engines } = Weave.Status;
  return { came, login, sync, service, engines };
}

async function sync() {
  await until(() => !Weave.Service.locked);
  return outcome("trial", () => Weave.Service.sync({ why: "trial" }));
}

// Signs in as the page of Mozilla's accounts would have the browser do, which then syncs by itself.
async function signIn(settings, sessionToken, scope) {
  for (const [name, value] of Object.entries(settings)) {
    Services.prefs.setStringPref(name, value);
  }
  accounts.resetFxAccountsClient();
  const key = { scope, kid: "1764000000000-AAECAwQFBgcICQoLDA0ODw", kty: "oct", k: "5t".repeat(43) };
  const account = { uid: "7".repeat(32), email: "somebody@household.example", sessionToken, verified: true };
  await accounts._internal.setSignedInUser({ ...account, scopedKeys: { [scope]: key } });
  return outcome("login", () => Weave.Service.configure());
}

// Signs out, and answers what the setting then is.
async function signOut() {
  const over = [announced("testhelper-fxa-signout-complete"), announced("weave:service:start-over:finish")];
  await accounts.signOut();
  await Promise.all(over);
  return Services.prefs.getStringPref(SETTING);
}

// What a push message of Mozilla has a browser do where another one has signed in.
async function hearOfDevice(name) {
  if (await accounts.getSignedInUser()) {
    Services.obs.notifyObservers(null, "fxaccounts:device_connected", name);
    await accounts.device.refreshDeviceList({ ignoreCached: true });
  }
}

const set = address => Services.prefs.setStringPref(SETTING, address);

// A sync with an address that is refused. After the first 401 the browser tries once more by itself.
async function syncRefused() {
  await sync();
  await until(() => Weave.answers.some(([, path, , status]) => path.includes("/token/") && status == 404));
  await until(() => !Weave.Service.locked);
  return [Weave.Status.login, (await accounts.getSignedInUser()) != null];
}

// A sync that meets the 401 of an old address, and what comes of the one that the browser then makes by itself.
const syncTwice = () => outcome("reschedule", sync);

async function fill() {
  const { insert, insertTree, menuGuid, toolbarGuid, unfiledGuid, TYPE_FOLDER, TYPE_SEPARATOR } = PlacesUtils.bookmarks;
  const put = bookmark => insert.call(PlacesUtils.bookmarks, bookmark);
  const many = (count, make) => Array.from({ length: count }, (_, at) => make(at));
  const outer = await put({ parentGuid: menuGuid, title: "Outer", type: TYPE_FOLDER });
  const inner = await put({ parentGuid: outer.guid, title: "Inner", type: TYPE_FOLDER });
  await put({ parentGuid: outer.guid, type: TYPE_SEPARATOR });
  await put({ parentGuid: toolbarGuid, title: "To be renamed", url: "https://renamed.example/" });
  await put({ parentGuid: unfiledGuid, title: "To be deleted", url: "https://deleted.example/" });
  const children = many(250, at => ({ title: `Bookmark ${at} é`, url: `https://bookmark.example/${at}` }));
  await insertTree.call(PlacesUtils.bookmarks, { guid: inner.guid, children });
  const visits = at => [{ date: new Date(Date.now() - 60000 * (at + 1)) }];
  const page = at => ({ url: `https://history.example/${at}`, title: `Visited ${at}`, visits: visits(at) });
  await PlacesUtils.history.insertMany(many(150, page));
  const login = Cc["@mozilla.org/login-manager/loginInfo;1"].createInstance(Ci.nsILoginInfo);
  login.init("https://login.example", "https://login.example", null, "somebody", "first password", "user", "pass");
  await Services.logins.addLoginAsync(login);
}

async function edit() {
  const renamed = await PlacesUtils.bookmarks.fetch({ url: "https://renamed.example/" });
  await PlacesUtils.bookmarks.update({ guid: renamed.guid, title: "Renamed" });
  const deleted = await PlacesUtils.bookmarks.fetch({ url: "https://deleted.example/" });
  await PlacesUtils.bookmarks.remove(deleted.guid);
  await PlacesUtils.history.remove("https://history.example/7");
  const login = (await Services.logins.getAllLogins()).find(({ origin }) => origin == "https://login.example");
  const changed = login.clone();
  changed.password = "second password";
  await Services.logins.modifyLoginAsync(login, changed);
}

const add = title =>
  PlacesUtils.bookmarks
    .insert({ parentGuid: PlacesUtils.bookmarks.toolbarGuid, title, url: `https://${title.toLowerCase()}.example/` })
    .then(() => null);

// What the browser holds of websites, in an order that can be compared.
async function held() {
  const { menuGuid, toolbarGuid, unfiledGuid, mobileGuid } = PlacesUtils.bookmarks;
  const plain = ({ guid, title, uri, children }) => ({ guid, title, uri, children: children?.map(plain) });
  const bookmarks = [];
  for (const root of [menuGuid, toolbarGuid, unfiledGuid, mobileGuid]) {
    bookmarks.push(plain(await PlacesUtils.promiseBookmarksTree(root)));
  }
  const places = await PlacesUtils.promiseDBConnection();
  const visits = await places.execute(`SELECT url, title, visit_date FROM moz_historyvisits
    JOIN moz_places ON place_id = moz_places.id WHERE substr(url, 1, 8) = 'https://' ORDER BY url, visit_date`);
  const logins = (await Services.logins.getAllLogins()).filter(({ origin }) => origin.startsWith("https:"));
  return {
    bookmarks,
    history: visits.map(row => ["url", "title", "visit_date"].map(name => row.getResultByName(name))),
    logins: logins.map(({ guid, origin, username, password }) => [guid, origin, username, password]).sort(),
  };
}

async function openTab(address) {
  const { gBrowser } = Services.wm.getMostRecentWindow("navigator:browser");
  const triggeringPrincipal = Services.scriptSecurityManager.getSystemPrincipal();
  gBrowser.selectedTab = gBrowser.addTab(address, { triggeringPrincipal });
  await until(() => gBrowser.selectedBrowser.contentTitle.startsWith("Page"));
  return gBrowser.selectedBrowser.contentTitle;
}

const tabsOfOthers = async () =>
  (await SyncedTabs.getTabClients()).flatMap(({ tabs }) => tabs.map(({ title }) => title)).sort();

// The method and the status of the first request with this condition.
async function answerTo(condition) {
  const find = () => Weave.answers.find(answer => answer[2] == condition);
  await until(find);
  return find() ? [find()[0], find()[3]] : "nothing was sent";
}

// Writes the tabs as the browser does some seconds after one changed; whether it could.
const writeTabs = () => Weave.Service.engineManager.get("tabs").quickWrite();

// Deletes all on the server, forgets what was synced, and answers what the server then lists.
async function wipe() {
  await Weave.Service.wipeServer();
  await Weave.Service.resetClient();
  return (await Weave.Service.resource(Weave.Service.infoURL).get()).obj;
}
