// Starts `sany serve` for the folder that is open.
const { workspace } = require("vscode");
const { LanguageClient } = require("vscode-languageclient/node");

let client;

exports.activate = () => {
  const command = workspace.getConfiguration("sany").get("path");
  client = new LanguageClient(
    "sany",
    "SANY",
    { command, args: ["serve"] },
    {
      documentSelector: [{ scheme: "file", language: "tla" }],
      synchronize: { fileEvents: workspace.createFileSystemWatcher("**/*.tla") },
    },
  );
  return client.start();
};

exports.deactivate = () => client && client.stop();
