// Runs the language server of bench61499 for the units that are open.
const { workspace } = require('vscode');
const { LanguageClient } = require('vscode-languageclient/node');

let client;

exports.activate = async () => {
  const [command, ...args] = workspace.getConfiguration('bench61499').get('server');
  client = new LanguageClient('bench61499', { command, args }, { documentSelector: [{ language: 'fb61499' }] });
  await client.start();
};

exports.deactivate = () => client?.stop();
