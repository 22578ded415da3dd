(|exit|)
