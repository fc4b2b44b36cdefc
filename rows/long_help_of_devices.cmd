devices --help
