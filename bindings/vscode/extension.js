// Starts `wgsl serve` when a WGSL file is opened, and again when the settings change.
"use strict";

const { workspace } = require("vscode");
const { LanguageClient } = require("vscode-languageclient/node");

let client;

async function start() {
    const settings = workspace.getConfiguration("wgsl");
    const server = { command: settings.get("program"), args: ["serve"] };
    const { types, offsets, paddings } = settings.get("inlayHints");
    client = new LanguageClient("wgsl", "WGSL", server, {
        documentSelector: [{ language: "wgsl" }],
        initializationOptions: { inlayHints: { types, offsets, paddings } },
    });
    await client.start();
}

exports.activate = async (context) => {
    const restart = async (change) => {
        if (change.affectsConfiguration("wgsl")) {
            await client.stop();
            await start();
        }
    };
    context.subscriptions.push(workspace.onDidChangeConfiguration(restart));
    await start();
};

exports.deactivate = () => client?.stop();
