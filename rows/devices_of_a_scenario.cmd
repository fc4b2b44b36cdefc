devices --scenario
