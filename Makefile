# Installs the proved program with the files of deploy/, or makes a Debian package of them.
#
#   make install [DESTDIR=FOLDER]   installs; then: systemd-sysusers, systemd-tmpfiles --create, systemctl daemon-reload
#   make uninstall [DESTDIR=FOLDER] removes what `install` put there; no configuration, no key, no file of a desk
#   make deb                        makes crates/achdesk/out/achdesk_VERSION_ARCHITECTURE.deb
#
# ./achdesk proves and builds the program; PROGRAM names another one.
PROGRAM = crates/achdesk/out/achdesk
PACKAGES = crates/achdesk/out
VERSION = $(shell $(PROGRAM) --version | cut -d' ' -f2)+$(shell git rev-list --count HEAD 2>/dev/null || echo 0)
ARCHITECTURE = $(shell dpkg --print-architecture)
DPKG_DEB = dpkg-deb --root-owner-group
LIBC = $(shell dpkg-query --show --showformat='$${Version}' libc6 | cut -d- -f1)
# When the sources last changed: the date of the changelog, and of all files in the package.
DATE = $(shell git log -1 --format=%ct 2>/dev/null || date +%s)

BIN = $(DESTDIR)/usr/bin
UNITS = $(DESTDIR)/usr/lib/systemd/system
SHARE = $(DESTDIR)/usr/share
# Where the system's python3 looks for modules: this is Debian's folder.
PYTHON = $(DESTDIR)/usr/lib/python3/dist-packages
ETC = $(DESTDIR)/etc

units = $(wildcard deploy/*.service deploy/*.timer deploy/*.path deploy/standby/*.service deploy/standby/*.timer)
scripts = $(sort $(shell find deploy deploy/standby clients -maxdepth 1 -type f -name 'achdesk-*' -perm -u+x))
commands = achdesk $(notdir $(scripts))
modules = $(wildcard clients/python/achdesk.py clients/python/achdesk) $(shell find deploy -maxdepth 1 -type d -name 'achdesk_*')
lists = people companies desk
configurations = $(notdir $(wildcard deploy/achdesk.env deploy/alarm.conf deploy/day.conf deploy/operators.conf))
snippets = http server
standby = $(addprefix deploy/standby/,achdesk.res cluster.crm corosync.conf alerts.yml)
installed = $(commands:%=$(BIN)/%) $(commands:%=$(SHARE)/man/man1/%.1.gz) $(addprefix $(UNITS)/,$(notdir $(units))) \
    $(DESTDIR)/usr/lib/sysusers.d/achdesk.conf $(DESTDIR)/usr/lib/tmpfiles.d/achdesk.conf

.PHONY: install uninstall deb program

program:
	@test -x '$(PROGRAM)' || { echo 'make: there is no $(PROGRAM): ./achdesk --version proves and builds it' >&2; exit 1; }

# A folder or a file that is the bank's is made once, and then left as it is, with its rights.
install: program
	install -d $(BIN) $(PYTHON) $(UNITS) $(SHARE)/achdesk/console $(SHARE)/achdesk/etc $(SHARE)/achdesk/grafana $(SHARE)/achdesk/prometheus $(SHARE)/achdesk/keys $(SHARE)/man/man1
	install -d $(ETC)/achdesk $(ETC)/logrotate.d $(ETC)/nginx/sites-available $(ETC)/nginx/snippets
	for folder in keys tls; do test -e $(ETC)/achdesk/$$folder || install -d -m 700 $(ETC)/achdesk/$$folder || exit 1; done
	install -m 755 '$(PROGRAM)' $(BIN)/achdesk
	install -m 755 $(scripts) $(BIN)
	rm -rf $(addprefix $(PYTHON)/,$(notdir $(modules)))
	for module in $(modules); do \
	    tar -C $${module%/*} --exclude=__pycache__ --exclude=tests --mode=u=rwX,go=rX -cf - $${module##*/} | tar -C $(PYTHON) --no-same-owner -xf - || exit 1; done
	for name in $(commands); do \
	    PYTHONDONTWRITEBYTECODE=1 PYTHONPATH=$(PYTHON) python3 deploy/manual.py $$name $(BIN)/$$name > $(SHARE)/man/man1/$$name.1 && gzip -9nf $(SHARE)/man/man1/$$name.1 || exit 1; done
	install -m 644 $(units) $(UNITS)
	install -D -m 644 deploy/sysusers.conf $(DESTDIR)/usr/lib/sysusers.d/achdesk.conf
	install -D -m 644 deploy/tmpfiles.conf $(DESTDIR)/usr/lib/tmpfiles.d/achdesk.conf
	install -m 644 console/* $(SHARE)/achdesk/console
	install -m 644 deploy/grafana/achdesk.json $(SHARE)/achdesk/grafana
	install -m 644 deploy/prometheus/achdesk.rules.yml deploy/prometheus/achdesk.mtail $(SHARE)/achdesk/prometheus
	install -m 644 $(lists:%=deploy/keys/%.map) $(SHARE)/achdesk/keys
	install -m 644 $(configurations:%=deploy/%) deploy/nginx.conf $(SHARE)/achdesk/etc
	install -m 644 deploy/nftables.conf docs/audit.sql $(SHARE)/achdesk
	install -D -m 644 -t $(SHARE)/achdesk/standby $(standby)
	rm -rf $(SHARE)/doc/achdesk
	python3 deploy/pages.py $(SHARE)/doc/achdesk
	for name in $(snippets); do install -m 644 deploy/nginx-$$name.conf $(ETC)/nginx/snippets/achdesk-$$name.conf || exit 1; done
	for name in $(configurations); do test -e $(ETC)/achdesk/$$name || install -m 644 deploy/$$name $(ETC)/achdesk || exit 1; done
	for name in $(lists); do test -e $(ETC)/achdesk/keys/$$name.map || install -m 600 deploy/keys/$$name.map $(ETC)/achdesk/keys || exit 1; done
	test -e $(ETC)/logrotate.d/achdesk || install -m 644 deploy/logrotate $(ETC)/logrotate.d/achdesk
	test -e $(ETC)/nginx/sites-available/achdesk || install -m 644 deploy/nginx.conf $(ETC)/nginx/sites-available/achdesk

# The snippets stay, since the bank's site includes them.
uninstall:
	rm -f $(installed)
	rm -rf $(addprefix $(PYTHON)/,$(notdir $(modules))) $(SHARE)/achdesk $(SHARE)/doc/achdesk
	rm -f $(PYTHON)/__pycache__/achdesk.*.pyc

# What the bank edits is not in the package: postinst makes it once, of /usr/share/achdesk, and an upgrade never asks about it.
deb: program
	set -e; folder=$$(mktemp -d); trap 'rm -rf "$$folder" "$$folder.log"' EXIT; \
	umask 022; chmod 755 "$$folder"; \
	$(MAKE) --no-print-directory install DESTDIR="$$folder" PROGRAM='$(PROGRAM)' > "$$folder.log" 2>&1 || { cat "$$folder.log" >&2; exit 1; }; \
	rm -r "$$folder/etc/achdesk" "$$folder/etc/nginx/sites-available"; \
	strip --strip-unneeded "$$folder/usr/bin/achdesk"; \
	doc="$$folder/usr/share/doc/achdesk"; install -d "$$folder/DEBIAN" "$$doc"; \
	install -m 644 deploy/package/copyright "$$doc"; \
	sed -e "s/@VERSION@/$(VERSION)/; s/@DATE@/$$(date -u -R -d @$(DATE))/" deploy/package/changelog | gzip -9n > "$$doc/changelog.gz"; \
	size=$$(du -sk --exclude=DEBIAN "$$folder" | cut -f1); \
	sed -e "s/@VERSION@/$(VERSION)/; s/@ARCHITECTURE@/$(ARCHITECTURE)/; s/@LIBC@/$(LIBC)/; s/@SIZE@/$$size/" \
	    deploy/package/control > "$$folder/DEBIAN/control"; \
	install -m 644 deploy/package/conffiles "$$folder/DEBIAN"; \
	install -m 755 deploy/package/postinst deploy/package/prerm deploy/package/postrm "$$folder/DEBIAN"; \
	(cd "$$folder"; find usr -type f -printf '%p\0' | LC_ALL=C sort -z | xargs -0 md5sum) > "$$folder/DEBIAN/md5sums"; \
	SOURCE_DATE_EPOCH=$(DATE) $(DPKG_DEB) --build "$$folder" '$(PACKAGES)/achdesk_$(VERSION)_$(ARCHITECTURE).deb'
