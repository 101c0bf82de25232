"""From a path to files ready to judge: archives, which file is which, the manifest, mends and ways out of a refusal."""
