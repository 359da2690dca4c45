/* Nothing: there are no files. */
