"""The commands of ./uvt that are tools: the module NAME is `./uvt NAME`."""
