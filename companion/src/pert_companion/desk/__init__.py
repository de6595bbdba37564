"""The desk: a folder of projects in the browser. It computes and draws nothing of its own."""
