"""Makes plays from seeds: adversarial texts, style sheets, bundles and commands."""
